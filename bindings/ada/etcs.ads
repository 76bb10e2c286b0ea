--  The codec for Ada: the calls of etcs.h, which describes what each call does, returns and requires.
--  Etcs.Variables has the numbers of the variables, and Etcs.Items the same calls over arrays and strings.
with Interfaces;   use Interfaces;
with Interfaces.C; use Interfaces.C;

package Etcs is

   type Byte_Array is array (size_t range <>) of aliased Unsigned_8 with Convention => C;

   subtype Kind is Unsigned_32;
   Long_Telegram  : constant Kind := 1;
   Short_Telegram : constant Kind := 2;
   Radio_Message  : constant Kind := 3;
   Train_Message  : constant Kind := 4;

   subtype Status is Unsigned_32;
   Ok           : constant Status := 0;
   More         : constant Status := 1;
   Refused      : constant Status := 2;
   No_Room      : constant Status := 3;
   No_Memory    : constant Status := 4;
   Unknown_Kind : constant Status := 5;
   Bad_Json     : constant Status := 6;
   Bad_Fields   : constant Status := 7;
   Empty_Line   : constant Status := 8;
   No_Digits    : constant Status := 9;
   Odd_Digits   : constant Status := 10;

   Clash_Position  : constant Status := 11;
   Clash_Duplicate : constant Status := 12;
   Clash_Group     : constant Status := 13;
   Clash_Total     : constant Status := 14;
   Clash_Counter   : constant Status := 15;
   Clash_Differs   : constant Status := 16;

   type Answer is record
      Taken   : size_t := 0;
      Written : size_t := 0;
      Bit     : size_t := 0;
      Var     : char_array (0 .. 31) := (others => nul);
   end record
     with Convention => C;

   type Field is record
      Number : Unsigned_64 := 0;
      Var    : Unsigned_32 := 0;
      Width  : Unsigned_32 := 0;
   end record
     with Convention => C;

   type Field_Array is array (size_t range <>) of aliased Field with Convention => C;

   --  Where a field is: its packet, its entry in a repeated group, and its entry in one inside that, each from 1; 0 if in none.
   type Field_Place is record
      Packet      : size_t := 0;
      Group_Entry : size_t := 0;
      Inner_Entry : size_t := 0;
   end record
     with Convention => C;

   type Place_Array is array (size_t range <>) of aliased Field_Place with Convention => C;

   type Telegram is record
      K     : Kind := Long_Telegram;
      Bytes : Byte_Array (0 .. 103) := (others => 0);
   end record
     with Convention => C;

   type Telegram_Array is array (size_t range <>) of aliased Telegram with Convention => C;

   type Group is record
      Missing     : Byte_Array (0 .. 7) := (others => 0);
      Is_Complete : Unsigned_32 := 0;
   end record
     with Convention => C;

   --  Why a bit is refused: Cause, Here, and the members that are there, of which Has is the sum.
   Spare : constant Unsigned_32 := 0;
   Unfit : constant Unsigned_32 := 1;

   Any            : constant Unsigned_32 := 0;
   Message_Length : constant Unsigned_32 := 1;
   Packet_Number  : constant Unsigned_32 := 2;
   Packet_Length  : constant Unsigned_32 := 3;
   Row            : constant Unsigned_32 := 4;

   Has_Number : constant Unsigned_32 := 1;
   Has_Below  : constant Unsigned_32 := 2;
   Has_Above  : constant Unsigned_32 := 4;
   Has_Room   : constant Unsigned_32 := 8;
   Has_Nid    : constant Unsigned_32 := 16;

   type Reason is record
      Bits   : Unsigned_64 := 0;
      Count  : Unsigned_64 := 0;
      Number : Unsigned_64 := 0;
      Below  : Unsigned_64 := 0;
      Above  : Unsigned_64 := 0;
      Unfit  : Unsigned_64 := 0;
      Room   : Unsigned_64 := 0;
      Cause  : Unsigned_32 := 0;
      Here   : Unsigned_32 := 0;
      Nid    : Unsigned_32 := 0;
      Has    : Unsigned_32 := 0;
   end record
     with Convention => C;

   function Check
     (K : Kind; Bytes : access constant Unsigned_8; Len : size_t; A : in out Answer) return Status
     with Import, Convention => C, External_Name => "etcs_check";

   function Show
     (K : Kind; Item : Unsigned_64; Bytes : access constant Unsigned_8; Len : size_t;
      Output : access Unsigned_8; Room : size_t; A : in out Answer) return Status
     with Import, Convention => C, External_Name => "etcs_show";

   function To_Json
     (K : Kind; Bytes : access constant Unsigned_8; Len : size_t;
      Output : access Unsigned_8; Room : size_t; A : in out Answer) return Status
     with Import, Convention => C, External_Name => "etcs_to_json";

   function From_Json
     (K : Kind; Line : access constant Unsigned_8; Len : size_t;
      Output : access Unsigned_8; Room : size_t; A : in out Answer) return Status
     with Import, Convention => C, External_Name => "etcs_from_json";

   function Fields
     (K : Kind; Bytes : access constant Unsigned_8; Len : size_t;
      Output : access Field; Room : size_t; A : in out Answer) return Status
     with Import, Convention => C, External_Name => "etcs_fields";

   function Places
     (K : Kind; Bytes : access constant Unsigned_8; Len : size_t;
      Output : access Field_Place; Room : size_t; A : in out Answer) return Status
     with Import, Convention => C, External_Name => "etcs_places";

   function From_Fields
     (K : Kind; Sent : access constant Field; Len : size_t;
      Output : access Unsigned_8; Room : size_t; A : in out Answer) return Status
     with Import, Convention => C, External_Name => "etcs_from_fields";

   --  Meanings of numbers, digits of lines, balise groups.

   function Meaning
     (K : Kind; Var : Unsigned_32; Number : Unsigned_64; Scale : Unsigned_32;
      Output : access Unsigned_8; Room : size_t; A : in out Answer) return Status
     with Import, Convention => C, External_Name => "etcs_meaning";

   function Line_Bytes
     (Line : access constant Unsigned_8; Len : size_t;
      Output : access Unsigned_8; Room : size_t; A : in out Answer) return Status
     with Import, Convention => C, External_Name => "etcs_line_bytes";

   function Line_Front (Line : access constant Unsigned_8; Len : size_t) return size_t
     with Import, Convention => C, External_Name => "etcs_line_front";

   function Assemble
     (Telegrams : access constant Telegram; Count : size_t; G : in out Group; A : in out Answer) return Status
     with Import, Convention => C, External_Name => "etcs_assemble";

   function Version (Output : access Unsigned_8; Room : size_t; A : in out Answer) return Status
     with Import, Convention => C, External_Name => "etcs_version";

   --  Why the input isn't an item: written if the status is Refused, or Bad_Json.

   function Explain
     (K : Kind; Bytes : access constant Unsigned_8; Len : size_t;
      Output : access Unsigned_8; Room : size_t; A : in out Answer) return Status
     with Import, Convention => C, External_Name => "etcs_explain";

   function Refusal
     (K : Kind; Bytes : access constant Unsigned_8; Len : size_t; R : in out Reason; A : in out Answer) return Status
     with Import, Convention => C, External_Name => "etcs_refusal";

   function Fields_Before
     (K : Kind; Bytes : access constant Unsigned_8; Len : size_t;
      Output : access Field; Room : size_t; A : in out Answer) return Status
     with Import, Convention => C, External_Name => "etcs_fields_before";

   function Explain_Json
     (K : Kind; Line : access constant Unsigned_8; Len : size_t;
      Output : access Unsigned_8; Room : size_t; A : in out Answer) return Status
     with Import, Convention => C, External_Name => "etcs_explain_json";

   function Json_Reason
     (K : Kind; Line : access constant Unsigned_8; Len : size_t;
      Output : access Unsigned_8; Room : size_t; A : in out Answer) return Status
     with Import, Convention => C, External_Name => "etcs_json_reason";

end Etcs;
