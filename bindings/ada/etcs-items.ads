--  Telegrams and messages as arrays and strings, over the calls of Etcs: no buffers, statuses or pointers in the caller's code.
--
--     Verdict : constant Check_Result := Check (Kind_Radio, Bytes);
--     ..
--     case Verdict.Outcome is
--        when Item_Whole     => the item takes the first Verdict.Length bytes
--        when Item_Truncated => these bytes begin an item but hold no whole one
--        when Item_Refused   => bit Verdict.Place.Bit, in the variable Verdict.Place.Name, is refused
--     end case;
--
--  The functions that return an item's text, JSON, fields, places or bytes raise one of the exceptions below if there is no item, with
--  the reason as the message, which GNAT cuts after 200 characters; no other function raises an exception because of what
--  bytes, JSON or fields are. Bytes after the item are ignored. A String is in UTF-8. Arrays may begin at any index, and those
--  returned begin at 1.
--
--  Storage_Error is raised if there is no memory. Any task may call at any time. The calls are those of etcs.h, which describes
--  them and names what is proved; this package is tested, not proved. It takes the stack that etcs.h names, and for fields up
--  to 128 KiB more, for places up to 192 KiB, for a line half of its length.
with Ada.Strings.Bounded;

package Etcs.Items is

   --  What the bytes hold: balise telegrams of 830 and of 210 bits, messages to the train, and messages from it.
   type Item_Kind is (Kind_Long, Kind_Short, Kind_Radio, Kind_Train);

   subtype Telegram_Kind is Item_Kind range Kind_Long .. Kind_Short;

   Refused_Item   : exception; --  no item continues with a bit
   Truncated_Item : exception; --  the bytes end inside an item
   Not_An_Item    : exception; --  no item has this JSON, or these fields
   Line_Error     : exception; --  a line has no bytes: Digits_Of says why

   --  Names of variables: Names.To_String (Place.Name).
   package Names is new Ada.Strings.Bounded.Generic_Bounded_Length (31);

   --  A refused bit: no item continues with it. It is counted from 0, the top bit of the first byte.
   type Bit_Place is record
      Bit  : size_t := 0;
      Name : Names.Bounded_String; --  of the variable that has it
   end record;

   ---- Reading

   type Item_Outcome is (Item_Whole, Item_Truncated, Item_Refused);

   type Check_Result (Outcome : Item_Outcome := Item_Truncated) is record
      case Outcome is
         when Item_Whole     => Length : size_t;
         when Item_Truncated => null;
         when Item_Refused   => Place : Bit_Place;
      end case;
   end record;

   --  What the bytes begin with.
   function Check (K : Item_Kind; Bytes : Byte_Array) return Check_Result;

   --  The text of `etcs show`, with Number as the item's number. Refused_Item or Truncated_Item if there is no item.
   function Show (K : Item_Kind; Bytes : Byte_Array; Number : Unsigned_64 := 1) return String;

   --  The item's JSON, without a line feed. Refused_Item or Truncated_Item.
   function To_Json (K : Item_Kind; Bytes : Byte_Array) return String;

   --  The item's variables in the order of sending. Refused_Item or Truncated_Item.
   function Fields (K : Item_Kind; Bytes : Byte_Array) return Field_Array;

   --  The place of each of these, in their order: its packet, and its entry in each repeated group. Refused_Item or Truncated_Item.
   function Places (K : Item_Kind; Bytes : Byte_Array) return Place_Array;

   ---- Writing

   --  The bytes of the item that has this JSON. Not_An_Item, with the path of what is wrong.
   function From_Json (K : Item_Kind; Line : String) return Byte_Array;

   --  The bytes of the item that has exactly these fields. Not_An_Item.
   function From_Fields (K : Item_Kind; Sent : Field_Array) return Byte_Array;

   ---- Why bytes or JSON are refused

   --  Why the refused bit is refused, as a sentence; "" if none is.
   function Explain (K : Item_Kind; Bytes : Byte_Array) return String;

   --  Why no item has this JSON, with the path of what is wrong; "" if one has it.
   function Explain_Json (K : Item_Kind; Line : String) return String;

   --  The same as an object of JSON: path, column, what was expected and found, and the sentence; "" if one has it.
   function Json_Reason (K : Item_Kind; Line : String) return String;

   --  The fields of variables before the refused bit; none if no bit is refused.
   function Fields_Before (K : Item_Kind; Bytes : Byte_Array) return Field_Array;

   type Optional_Number (Is_There : Boolean := False) is record
      case Is_There is
         when True  => Value : Unsigned_64;
         when False => null;
      end case;
   end record;

   --  Whether the tables have no number that begins with these bits, or have one but none that fits there.
   type Refusal_Cause is (Spare_Bits, Unfit_Number);

   --  What comes there: a variable with any number that it admits; L_MESSAGE; NID_PACKET; L_PACKET; a variable of a packet.
   type Refusal_Place is (Any_Variable, Length_Of_Message, Number_Of_Packet, Length_Of_Packet, Variable_In_Packet);

   --  Why a bit is refused, as numbers; etcs.h describes them (etcs_reason).
   type Bit_Reason is record
      Bits    : Unsigned_64 := 0;    --  the variable's bits up to and with the refused one, as a number
      Count   : Positive := 1;       --  how many these are
      Cause   : Refusal_Cause := Spare_Bits;
      Here    : Refusal_Place := Any_Variable;
      Number  : Optional_Number;     --  the variable's number, if the bytes have all of its bits
      Below   : Optional_Number;     --  the nearest numbers that may come there
      Above   : Optional_Number;
      Unfit   : Optional_Number;     --  with Unfit_Number: a number that begins with these bits and that the tables have
      Room    : Optional_Number;     --  how many bits are left
      Nid     : Optional_Number;     --  the number of the packet or the message
   end record;

   type Refusal_Result (Is_Refused : Boolean := False) is record
      case Is_Refused is
         when True  =>
            Place  : Bit_Place;
            Reason : Bit_Reason;
         when False => null;
      end case;
   end record;

   function Refusal (K : Item_Kind; Bytes : Byte_Array) return Refusal_Result;

   ---- Meanings, and lines of logs

   --  A variable's name, as the standard prints it. Constraint_Error if no variable has the number.
   function Name (Var : Unsigned_32) return String;

   --  What a number of a variable means, in the words of `etcs explain`; "" if there is no meaning. A distance is in metres by
   --  Scale, the Q_SCALE of its packet or message. Constraint_Error if no variable has the number Var.
   function Meaning (K : Item_Kind; Var : Unsigned_32; Number : Unsigned_64; Scale : Unsigned_32 := 3) return String;

   type Line_Digits is (Digits_There, Line_Is_Empty, Line_Without_Digits, Digits_Odd);

   --  Whether a line has hexadecimal digits, by the rule of `etcs log`. Line_Is_Empty: it is blank, or a comment.
   function Digits_Of (Line : String) return Line_Digits;

   --  The bytes of the line's digits. Line_Error if Digits_Of isn't Digits_There.
   function Line_Bytes (Line : String) return Byte_Array;

   --  What is before the line's digits, such as a time.
   function Line_Front (Line : String) return String;

   --  Bytes as hexadecimal digits.
   function To_Hex (Bytes : Byte_Array) return String;

   ---- Balise groups

   --  A telegram for Assemble. Constraint_Error if there are more than 104 bytes.
   function To_Telegram (K : Telegram_Kind; Bytes : Byte_Array) return Telegram;

   type Position_Set is array (0 .. 7) of Boolean;

   --  Why a telegram doesn't belong to those before it: etcs.h describes each clash. Bit_Is_Refused: it is no telegram.
   type Group_Fault is
     (Bit_Is_Refused, Position_After_Last, No_Such_Duplicate, Other_Group, Other_Total, Other_Counter, Other_Telegram);

   type Group_Result (Is_Group : Boolean := False) is record
      case Is_Group is
         when True  =>
            Missing     : Position_Set;
            Is_Complete : Boolean;
         when False =>
            Index : size_t; --  of the first telegram that isn't held
            Fault : Group_Fault;
            Place : Bit_Place; --  with Bit_Is_Refused
      end case;
   end record;

   --  What telegrams of one balise group make together, in whatever order they came.
   function Assemble (Telegrams : Telegram_Array) return Group_Result;

   --  The library's version; that of an unproved one ends with " unproved".
   function Version return String;

end Etcs.Items;
