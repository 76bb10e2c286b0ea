with System;
with System.Address_To_Access_Conversions;

package body Etcs.Items is

   package Octets is new System.Address_To_Access_Conversions (Unsigned_8);
   package Variables_At is new System.Address_To_Access_Conversions (Field);
   package Places_At is new System.Address_To_Access_Conversions (Field_Place);
   package Telegrams_At is new System.Address_To_Access_Conversions (Telegram);

   function Octet (At_Address : System.Address) return Octets.Object_Pointer renames Octets.To_Pointer;

   Most_Bytes : constant := 1_023; --  of an item

   function Of_Kind (K : Item_Kind) return Kind is (Kind (Item_Kind'Pos (K) + 1));

   function Place_Of (A : Answer) return Bit_Place
   is (Bit => A.Bit, Name => Names.To_Bounded_String (To_Ada (A.Var)));

   --  Raises what the status of an item that isn't there means.
   procedure Stop_Unless_Done (S : Status; A : Answer; Why : String := "") is
   begin
      case S is
         when Ok =>
            null;
         when More =>
            raise Truncated_Item with "the bytes end inside an item";
         when Refused =>
            raise Refused_Item with "bit" & A.Bit'Image & ", " & To_Ada (A.Var) & (if Why = "" then "" else ": " & Why);
         when Bad_Json =>
            raise Not_An_Item with Why;
         when Bad_Fields =>
            raise Not_An_Item with "a number doesn't fit its width, or the item that the bits begin with has other fields";
         when No_Memory =>
            raise Storage_Error with "libetcs is out of memory";
         when others =>
            raise Program_Error with "libetcs returned status" & S'Image;
      end case;
   end Stop_Unless_Done;

   --  Calls with room for most texts, and again with room for this one if that wasn't enough. Text is written if the status is
   --  Ok; if it is a reason also with others.
   generic
      A : in out Answer;
      Is_Reason : Boolean;
      with function Call (Output : Octets.Object_Pointer; Room : size_t) return Status;
   function Written_Text (S : out Status) return String;

   function Written_Text (S : out Status) return String is
      Text : String (1 .. 8_192);
   begin
      S := Call (Octet (Text'Address), Text'Length);
      if S = No_Room then
         declare
            Longer : String (1 .. Natural (A.Written));
         begin
            S := Call (Octet (Longer'Address), Longer'Length);
            return Longer;
         end;
      elsif S = No_Memory then
         raise Storage_Error with "libetcs is out of memory";
      elsif S = Ok or else (Is_Reason and then S in More | Refused | Bad_Json) then
         return Text (1 .. Natural (A.Written));
      else
         return "";
      end if;
   end Written_Text;

   ---- Reading

   function Check (K : Item_Kind; Bytes : Byte_Array) return Check_Result is
      A : Answer;
      S : constant Status := Check (Of_Kind (K), Octet (Bytes'Address), Bytes'Length, A);
   begin
      case S is
         when Ok =>
            return (Item_Whole, A.Taken);
         when More =>
            return (Outcome => Item_Truncated);
         when Refused =>
            return (Item_Refused, Place_Of (A));
         when others =>
            Stop_Unless_Done (S, A);
            raise Program_Error;
      end case;
   end Check;

   function Show (K : Item_Kind; Bytes : Byte_Array; Number : Unsigned_64 := 1) return String is
      A : Answer;
      S : Status;

      function Call (Output : Octets.Object_Pointer; Room : size_t) return Status
      is (Show (Of_Kind (K), Number, Octet (Bytes'Address), Bytes'Length, Output, Room, A));

      function Text is new Written_Text (A, False, Call);

      Written : constant String := Text (S);
   begin
      Stop_Unless_Done (S, A, (if S = Refused then Explain (K, Bytes) else ""));
      return Written;
   end Show;

   function To_Json (K : Item_Kind; Bytes : Byte_Array) return String is
      A : Answer;
      S : Status;

      function Call (Output : Octets.Object_Pointer; Room : size_t) return Status
      is (To_Json (Of_Kind (K), Octet (Bytes'Address), Bytes'Length, Output, Room, A));

      function Text is new Written_Text (A, False, Call);

      Written : constant String := Text (S);
   begin
      Stop_Unless_Done (S, A, (if S = Refused then Explain (K, Bytes) else ""));
      return Written;
   end To_Json;

   --  As many fields as an item that these bytes begin with may have: each has a bit at least.
   function Most_Fields (Bytes : Byte_Array) return size_t is (8 * size_t'Min (Bytes'Length, Most_Bytes));

   function Fields (K : Item_Kind; Bytes : Byte_Array) return Field_Array is
      Sent : Field_Array (1 .. Most_Fields (Bytes));
      A    : Answer;
      S    : constant Status :=
        Fields (Of_Kind (K), Octet (Bytes'Address), Bytes'Length, Variables_At.To_Pointer (Sent'Address), Sent'Length, A);
   begin
      Stop_Unless_Done (S, A, (if S = Refused then Explain (K, Bytes) else ""));
      return Sent (1 .. A.Written);
   end Fields;

   function Places (K : Item_Kind; Bytes : Byte_Array) return Place_Array is
      Found : Place_Array (1 .. Most_Fields (Bytes));
      A     : Answer;
      S     : constant Status :=
        Places (Of_Kind (K), Octet (Bytes'Address), Bytes'Length, Places_At.To_Pointer (Found'Address), Found'Length, A);
   begin
      Stop_Unless_Done (S, A, (if S = Refused then Explain (K, Bytes) else ""));
      return Found (1 .. A.Written);
   end Places;

   ---- Writing

   function From_Json (K : Item_Kind; Line : String) return Byte_Array is
      Bytes : Byte_Array (1 .. Most_Bytes);
      A     : Answer;
      S     : constant Status :=
        From_Json (Of_Kind (K), Octet (Line'Address), Line'Length, Octet (Bytes'Address), Bytes'Length, A);
   begin
      Stop_Unless_Done (S, A, (if S in Refused | Bad_Json then Explain_Json (K, Line) else ""));
      return Bytes (1 .. A.Written);
   end From_Json;

   function From_Fields (K : Item_Kind; Sent : Field_Array) return Byte_Array is
      Bytes : Byte_Array (1 .. Most_Bytes);
      A     : Answer;
      S     : constant Status :=
        From_Fields
          (Of_Kind (K), Variables_At.To_Pointer (Sent'Address), Sent'Length, Octet (Bytes'Address), Bytes'Length, A);
   begin
      Stop_Unless_Done (S, A);
      return Bytes (1 .. A.Written);
   end From_Fields;

   ---- Why bytes or JSON are refused

   function Explain (K : Item_Kind; Bytes : Byte_Array) return String is
      A : Answer;
      S : Status;

      function Call (Output : Octets.Object_Pointer; Room : size_t) return Status
      is (Explain (Of_Kind (K), Octet (Bytes'Address), Bytes'Length, Output, Room, A));

      function Text is new Written_Text (A, True, Call);
   begin
      return Text (S);
   end Explain;

   function Explain_Json (K : Item_Kind; Line : String) return String is
      A : Answer;
      S : Status;

      function Call (Output : Octets.Object_Pointer; Room : size_t) return Status
      is (Explain_Json (Of_Kind (K), Octet (Line'Address), Line'Length, Output, Room, A));

      function Text is new Written_Text (A, True, Call);
   begin
      return Text (S);
   end Explain_Json;

   function Json_Reason (K : Item_Kind; Line : String) return String is
      A : Answer;
      S : Status;

      function Call (Output : Octets.Object_Pointer; Room : size_t) return Status
      is (Json_Reason (Of_Kind (K), Octet (Line'Address), Line'Length, Output, Room, A));

      function Text is new Written_Text (A, True, Call);
   begin
      return Text (S);
   end Json_Reason;

   function Fields_Before (K : Item_Kind; Bytes : Byte_Array) return Field_Array is
      Sent : Field_Array (1 .. Most_Fields (Bytes));
      A    : Answer;
      S    : constant Status :=
        Fields_Before
          (Of_Kind (K), Octet (Bytes'Address), Bytes'Length, Variables_At.To_Pointer (Sent'Address), Sent'Length, A);
   begin
      if S not in More | Refused then
         Stop_Unless_Done (S, A);
      end if;
      return Sent (1 .. A.Written);
   end Fields_Before;

   function Refusal (K : Item_Kind; Bytes : Byte_Array) return Refusal_Result is
      A : Answer;
      R : Reason;
      S : constant Status := Refusal (Of_Kind (K), Octet (Bytes'Address), Bytes'Length, R, A);

      function Optional (Member : Unsigned_32; Value : Unsigned_64) return Optional_Number
      is (if (R.Has and Member) = 0 then (Is_There => False) else (True, Value));
   begin
      if S /= Refused then
         if S /= More then
            Stop_Unless_Done (S, A);
         end if;
         return (Is_Refused => False);
      end if;
      return
        (Is_Refused => True,
         Place      => Place_Of (A),
         Reason     =>
           (Bits   => R.Bits,
            Count  => Positive (R.Count),
            Cause  => Refusal_Cause'Val (R.Cause),
            Here   => Refusal_Place'Val (R.Here),
            Number => Optional (Has_Number, R.Number),
            Below  => Optional (Has_Below, R.Below),
            Above  => Optional (Has_Above, R.Above),
            Unfit  => (if R.Cause = Unfit then (True, R.Unfit) else (Is_There => False)),
            Room   => Optional (Has_Room, R.Room),
            Nid    => Optional (Has_Nid, Unsigned_64 (R.Nid))));
   end Refusal;

   ---- Meanings, and lines of logs

   --  Asks for the meaning of a number that a variable may have, and for its name.
   procedure Ask (Var : Unsigned_32; A : in out Answer) is
      None : constant String (1 .. 0) := "";
      S    : constant Status := Meaning (Long_Telegram, Var, 0, 3, Octet (None'Address), 0, A);
   begin
      if S = Bad_Fields then
         raise Constraint_Error with "no variable has the number" & Var'Image;
      elsif S /= No_Room then
         Stop_Unless_Done (S, A);
      end if;
   end Ask;

   function Name (Var : Unsigned_32) return String is
      A : Answer;
   begin
      Ask (Var, A);
      return To_Ada (A.Var);
   end Name;

   function Meaning (K : Item_Kind; Var : Unsigned_32; Number : Unsigned_64; Scale : Unsigned_32 := 3) return String is
      A : Answer;
      S : Status;

      function Call (Output : Octets.Object_Pointer; Room : size_t) return Status
      is (Meaning (Of_Kind (K), Var, Number, Scale, Output, Room, A));

      function Text is new Written_Text (A, False, Call);
   begin
      Ask (Var, A);
      return Text (S);
   end Meaning;

   --  Asks for the bytes of a line, which has two digits for each at least.
   procedure Ask (Line : String; Bytes : out Byte_Array; A : in out Answer; Found : out Line_Digits) is
      S : constant Status := Line_Bytes (Octet (Line'Address), Line'Length, Octet (Bytes'Address), Bytes'Length, A);
   begin
      case S is
         when Ok         => Found := Digits_There;
         when Empty_Line => Found := Line_Is_Empty;
         when No_Digits  => Found := Line_Without_Digits;
         when Odd_Digits => Found := Digits_Odd;
         when others     => Stop_Unless_Done (S, A);
      end case;
   end Ask;

   function Digits_Of (Line : String) return Line_Digits is
      Bytes : Byte_Array (1 .. Line'Length / 2);
      A     : Answer;
      Found : Line_Digits;
   begin
      Ask (Line, Bytes, A, Found);
      return Found;
   end Digits_Of;

   function Line_Bytes (Line : String) return Byte_Array is
      Bytes : Byte_Array (1 .. Line'Length / 2);
      A     : Answer;
      Found : Line_Digits;
   begin
      Ask (Line, Bytes, A, Found);
      case Found is
         when Digits_There        => return Bytes (1 .. A.Written);
         when Line_Is_Empty       => raise Line_Error with "the line is blank, or a comment";
         when Line_Without_Digits => raise Line_Error with "no digits are found in the line";
         when Digits_Odd          => raise Line_Error with "an odd number of digits:" & A.Taken'Image;
      end case;
   end Line_Bytes;

   function Line_Front (Line : String) return String is
      Mark  : constant String := Character'Val (16#EF#) & Character'Val (16#BB#) & Character'Val (16#BF#);
      Count : constant Natural := Natural (size_t'(Line_Front (Octet (Line'Address), Line'Length)));
      First : constant Integer :=
        (if Line'Length >= 3 and then Line (Line'First .. Line'First + 2) = Mark then Line'First + 3 else Line'First);
   begin
      return Line (First .. First + Count - 1);
   end Line_Front;

   function To_Hex (Bytes : Byte_Array) return String is
      Digit : constant String := "0123456789ABCDEF";
      Text  : String (1 .. 2 * Bytes'Length);
      Next  : Positive := 1;
   begin
      for B of Bytes loop
         Text (Next) := Digit (Natural (B / 16) + 1);
         Text (Next + 1) := Digit (Natural (B mod 16) + 1);
         Next := Next + 2;
      end loop;
      return Text;
   end To_Hex;

   ---- Balise groups

   function To_Telegram (K : Telegram_Kind; Bytes : Byte_Array) return Telegram is
      T : Telegram;
   begin
      T.K := Of_Kind (K);
      if Bytes'Length > T.Bytes'Length then
         raise Constraint_Error with "a telegram has no more than 104 bytes";
      elsif Bytes'Length > 0 then
         T.Bytes (0 .. Bytes'Length - 1) := Bytes;
      end if;
      return T;
   end To_Telegram;

   function Assemble (Telegrams : Telegram_Array) return Group_Result is
      A       : Answer;
      G       : Group;
      Missing : Position_Set;
      S       : constant Status :=
        Assemble (Telegrams_At.To_Pointer (Telegrams'Address), Telegrams'Length, G, A);
   begin
      case S is
         when Ok =>
            for I in Missing'Range loop
               Missing (I) := G.Missing (size_t (I)) /= 0;
            end loop;
            return (True, Missing, G.Is_Complete /= 0);
         when Refused =>
            return (False, Telegrams'First + A.Taken, Bit_Is_Refused, Place_Of (A));
         when Clash_Position .. Clash_Differs =>
            return (False, Telegrams'First + A.Taken, Group_Fault'Val (S - Clash_Position + 1), (others => <>));
         when others =>
            Stop_Unless_Done (S, A);
            raise Program_Error;
      end case;
   end Assemble;

   function Version return String is
      A : Answer;
      S : Status;

      function Call (Output : Octets.Object_Pointer; Room : size_t) return Status is (Version (Output, Room, A));

      function Text is new Written_Text (A, False, Call);

      Written : constant String := Text (S);
   begin
      return Written (1 .. Written'Last - 1); --  the last is a zero
   end Version;

end Etcs.Items;
