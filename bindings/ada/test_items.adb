--  Tests Etcs.Items: each function with an item, with the front of one, with what is refused, and with nothing. It writes what
--  isn't as it should be, and finally how much was tested.
with Ada.Exceptions; use Ada.Exceptions;
with Ada.Text_IO;    use Ada.Text_IO;
with Interfaces;     use Interfaces;
with Interfaces.C;   use type Interfaces.C.size_t;
with Etcs;           use Etcs;
with Etcs.Items;     use Etcs.Items;
with Etcs.Variables; use Etcs.Variables;

procedure Test_Items is

   --  message 24 with packet 137, a message to the track, a short telegram, a message to the train whose bits are kept
   Radio : constant Byte_Array := Line_Bytes ("18034000000000080031280620");
   Train : constant Byte_Array := Line_Bytes ("8806800078900001348001028C610000FA5000A0015028061060");
   Short : constant Byte_Array := Line_Bytes ("A0007F802000CB200C7FFFFFFFFFFFFFFFFFFFFFFFFFFFFFFFFFC0");
   Kept  : constant Byte_Array (1 .. 1_023) := (16#07#, 16#FF#, 16#C0#, others => 16#AA#);
   None  : constant Byte_Array (1 .. 0) := (others => 0);
   --  L_MESSAGE 11 is no length of message 24
   Wrong : constant Byte_Array := Line_Bytes ("1802C000000000080031280620");
   Why   : constant String := "message 24 has 10 or 13 to 1023 bytes, not 11";

   Count, Faults : Natural := 0;

   procedure Expect (Is_So : Boolean; What : String) is
   begin
      Count := Count + 1;
      if not Is_So then
         Faults := Faults + 1;
         Put_Line ("not so: " & What);
      end if;
   end Expect;

   --  Whether a call raises this exception, with a message that ends so.
   generic
      with procedure Call;
   procedure Expect_Raise (Raised : Exception_Id; Message, What : String);

   procedure Expect_Raise (Raised : Exception_Id; Message, What : String) is
   begin
      Call;
      Expect (False, What & " raises nothing");
   exception
      when E : others =>
         declare
            Said : constant String := Exception_Message (E);
         begin
            Expect (Exception_Identity (E) = Raised, What & " raises " & Exception_Name (E));
            Expect
              (Said'Length >= Message'Length and then Said (Said'Last - Message'Length + 1 .. Said'Last) = Message,
               What & ": " & Said);
         end;
   end Expect_Raise;

   procedure Test_Item (K : Item_Kind; Bytes : Byte_Array) is
      Verdict : constant Check_Result := Check (K, Bytes & Byte_Array'(1 => 0));
      Front   : constant Byte_Array := Bytes (Bytes'First .. Bytes'Last - 1);

      procedure Show_Front is
      begin
         Put_Line (Show (K, Front));
      end Show_Front;

      procedure Json_Front is
      begin
         Put_Line (To_Json (K, Front));
      end Json_Front;

      procedure Fields_Front is
      begin
         Put_Line (Fields (K, Front)'Length'Image);
      end Fields_Front;

      procedure Test_Show is new Expect_Raise (Show_Front);
      procedure Test_Json is new Expect_Raise (Json_Front);
      procedure Test_Fields is new Expect_Raise (Fields_Front);

      procedure Places_Front is
      begin
         Put_Line (Places (K, Front)'Length'Image);
      end Places_Front;

      procedure Test_Places is new Expect_Raise (Places_Front);
      Bits : Unsigned_32 := 0;
   begin
      Expect (Verdict.Outcome = Item_Whole and then Verdict.Length = Bytes'Length, "Check " & K'Image);
      Expect (Check (K, Front).Outcome = Item_Truncated, "Check of a front");
      Expect (Check (K, None).Outcome = Item_Truncated, "Check of nothing");
      Expect (From_Json (K, To_Json (K, Bytes)) = Bytes, "From_Json (To_Json)");
      Expect (From_Fields (K, Fields (K, Bytes)) = Bytes, "From_Fields (Fields)");
      Expect (Fields (K, Bytes)'First = 1, "Fields from 1");
      for F of Fields (K, Bytes) loop
         Bits := Bits + F.Width;
      end loop;
      Expect (Bits = 8 * Bytes'Length, "bits of fields:" & Bits'Image);
      Expect (Show (K, Bytes, 7) (1 .. 7) = "item 7 ", "Show");
      Expect (Explain (K, Bytes) = "" and then Explain (K, Front) = "" and then Explain (K, None) = "", "Explain of no refusal");
      Expect (not Refusal (K, Bytes).Is_Refused and then not Refusal (K, None).Is_Refused, "Refusal of no refusal");
      Expect (Fields_Before (K, Bytes)'Length = 0 and then Fields_Before (K, None)'Length = 0, "Fields_Before");
      Expect (Explain_Json (K, To_Json (K, Bytes)) = "", "Explain_Json of an item's");
      Expect (Json_Reason (K, To_Json (K, Bytes)) = "" and then Json_Reason (K, "")'Length > 0, "Json_Reason");
      Test_Show (Truncated_Item'Identity, "the bytes end inside an item", "Show of a front");
      Test_Json (Truncated_Item'Identity, "the bytes end inside an item", "To_Json of a front");
      Test_Fields (Truncated_Item'Identity, "the bytes end inside an item", "Fields of a front");
      Test_Places (Truncated_Item'Identity, "the bytes end inside an item", "Places of a front");
      Expect (Places (K, Bytes)'First = 1, "Places from 1");
      Expect (Places (K, Bytes)'Length = Fields (K, Bytes)'Length, "as many Places as Fields");
   end Test_Item;

   --  Packet 27 of a short telegram: a field in no packet, in no entry, in the second entry of a list, in the second of its list.
   procedure Test_Nested is
      Found : constant Place_Array :=
        Places (Kind_Short, Line_Bytes ("A113140C40FFC6C04620028A002003C54000505A2445062FFFFFC0"));
   begin
      Expect (Found'Length = 36, "Places of packet 27:" & Found'Length'Image);
      Expect (Found (10) = (0, 0, 0) and then Found (36) = (0, 0, 0), "no packet");
      Expect (Found (11) = (1, 0, 0) and then Found (34) = (2, 0, 0), "packets");
      Expect (Found (20) = (1, 1, 0) and then Found (27) = (1, 2, 0), "entries");
      Expect (Found (28) = (1, 2, 1) and then Found (33) = (1, 2, 2), "entries of an entry");
   end Test_Nested;

   procedure Test_Refusals is
      Verdict : constant Check_Result := Check (Kind_Radio, Wrong);
      Reason  : constant Refusal_Result := Refusal (Kind_Radio, Wrong);
      Before  : constant Field_Array := Fields_Before (Kind_Radio, Wrong);
      Sent    : Field_Array (5 .. 10);
      Json    : constant String := "{""kind"":""radio"",""nid"":24,""header"":[[""T_TRAIN"",0],[""M_ACK"",2]]}";

      procedure Show_Wrong is
      begin
         Put_Line (Show (Kind_Radio, Wrong));
      end Show_Wrong;

      procedure Json_Wrong is
      begin
         Put_Line (To_Json (Kind_Radio, Wrong));
      end Json_Wrong;

      procedure Fields_Wrong is
      begin
         Put_Line (Fields (Kind_Radio, Wrong)'Length'Image);
      end Fields_Wrong;

      procedure From_Wrong_Json is
      begin
         Put_Line (To_Hex (From_Json (Kind_Radio, Json)));
      end From_Wrong_Json;

      procedure From_Wrong_Fields is
      begin
         Put_Line (To_Hex (From_Fields (Kind_Radio, Sent)));
      end From_Wrong_Fields;

      procedure Test_Show is new Expect_Raise (Show_Wrong);
      procedure Test_To_Json is new Expect_Raise (Json_Wrong);
      procedure Test_Fields is new Expect_Raise (Fields_Wrong);
      procedure Test_From_Json is new Expect_Raise (From_Wrong_Json);
      procedure Test_From_Fields is new Expect_Raise (From_Wrong_Fields);
   begin
      Expect (Verdict.Outcome = Item_Refused and then Verdict.Place.Bit = 17, "Check of a refused bit");
      Expect (Names.To_String (Verdict.Place.Name) = "L_MESSAGE", "its variable");
      Expect (Explain (Kind_Radio, Wrong) = Why, "Explain");
      Expect (Reason.Is_Refused and then Reason.Place.Bit = 17, "Refusal");
      Expect (Reason.Reason.Number = (True, 11), "Number");
      Expect (Reason.Reason.Below = (True, 10) and then Reason.Reason.Above = (True, 13), "Below and Above");
      Expect (Reason.Reason.Nid = (True, 24) and then not Reason.Reason.Room.Is_There, "Nid and Room");
      Expect (Reason.Reason.Bits = 11 and then Reason.Reason.Count = 10 and then not Reason.Reason.Unfit.Is_There, "Bits");
      Expect (Reason.Reason.Cause = Spare_Bits and then Reason.Reason.Here = Length_Of_Message, "Cause and Here");
      Expect (Before'Length = 1 and then Before (1).Var = NID_MESSAGE and then Before (1).Number = 24, "Fields_Before");
      Test_Show (Refused_Item'Identity, "bit 17, L_MESSAGE: " & Why, "Show of a refused bit");
      Test_To_Json (Refused_Item'Identity, "bit 17, L_MESSAGE: " & Why, "To_Json of a refused bit");
      Test_Fields (Refused_Item'Identity, "bit 17, L_MESSAGE: " & Why, "Fields of a refused bit");
      Test_From_Json (Not_An_Item'Identity, Explain_Json (Kind_Radio, Json), "From_Json");
      Expect (Explain_Json (Kind_Radio, Json)'Length > 0 and then Explain_Json (Kind_Radio, "")'Length > 0, "Explain_Json");
      Sent := Fields (Kind_Radio, Line_Bytes ("18028000000000000000"));
      Expect (From_Fields (Kind_Radio, Sent)'Length = 10, "From_Fields of another index");
      Sent (6).Number := 11;
      Test_From_Fields (Refused_Item'Identity, "bit 17, L_MESSAGE", "From_Fields of a refused bit");
      Sent (6) := (Number => 10, Var => M_ACK, Width => 10);
      Test_From_Fields (Not_An_Item'Identity, "has other fields", "From_Fields of other fields");
      Sent (6) := (Number => 2**10, Var => L_MESSAGE, Width => 10);
      Test_From_Fields (Not_An_Item'Identity, "has other fields", "From_Fields of a number without room");
      Sent (6) := (Number => 1_023, Var => L_MESSAGE, Width => 10);
      Test_From_Fields (Truncated_Item'Identity, "the bytes end inside an item", "From_Fields of a front");
   end Test_Refusals;

   procedure Test_Lines is
      Mark : constant String := Character'Val (16#EF#) & Character'Val (16#BB#) & Character'Val (16#BF#);
      Line : constant String (11 .. 20) := Mark & "noon A1";
      Odd  : constant String := "noon A1B";

      procedure Bytes_Of_Odd is
      begin
         Put_Line (To_Hex (Line_Bytes (Odd)));
      end Bytes_Of_Odd;

      procedure Bytes_Of_None is
      begin
         Put_Line (To_Hex (Line_Bytes ("")));
      end Bytes_Of_None;

      procedure Bytes_Of_Text is
      begin
         Put_Line (To_Hex (Line_Bytes ("noon")));
      end Bytes_Of_Text;

      procedure Test_Odd is new Expect_Raise (Bytes_Of_Odd);
      procedure Test_None is new Expect_Raise (Bytes_Of_None);
      procedure Test_Text is new Expect_Raise (Bytes_Of_Text);
   begin
      Expect (Digits_Of (Line (11 .. 18)) = Line_Without_Digits and then Digits_Of (Line (19 .. 20)) = Digits_There, "Digits_Of slices");
      Expect (Line_Bytes (Line) = Byte_Array'(1 => 16#A1#) and then Line_Front (Line) = "noon", "a line with a mark");
      Expect (Line_Front ("12:00:03 0xA1, 0x13") = "12:00:03", "Line_Front");
      Expect (Line_Front ("") = "" and then Line_Front ("A113") = "" and then Line_Front ("# dead") = "#", "Line_Front of none");
      Expect (To_Hex (Line_Bytes ("12:00:03 0xA1, 0x13")) = "A113", "Line_Bytes");
      Expect (To_Hex (None) = "" and then Digits_Of ("") = Line_Is_Empty and then Digits_Of (" # A113") = Line_Is_Empty, "no line");
      Expect (Digits_Of (Odd) = Digits_Odd and then Digits_Of ("A113 noon ") = Line_Without_Digits, "Digits_Of");
      Test_Odd (Line_Error'Identity, "an odd number of digits: 3", "odd digits");
      Test_None (Line_Error'Identity, "the line is blank, or a comment", "an empty line");
      Test_Text (Line_Error'Identity, "no digits are found in the line", "a line of text");
   end Test_Lines;

   procedure Test_Meanings is
      procedure Unknown_Name is
      begin
         Put_Line (Name (Unsigned_32'Last));
      end Unknown_Name;

      procedure Unknown_Meaning is
      begin
         Put_Line (Meaning (Kind_Radio, Unsigned_32'Last, 0));
      end Unknown_Meaning;

      procedure Test_Name is new Expect_Raise (Unknown_Name);
      procedure Test_Meaning is new Expect_Raise (Unknown_Meaning);
   begin
      Expect (Name (M_VERSION_HEADER) = "M_VERSION" and then Name (D_LINK) = "D_LINK" and then Name (Q_UPDOWN) = "Q_UPDOWN", "Name");
      Expect (Meaning (Kind_Short, D_LINK, 1_180, 0) = "118.0 m" and then Meaning (Kind_Short, D_LINK, 1_180) = "", "D_LINK");
      Expect (Meaning (Kind_Short, T_LOA, 1_023) = "unlimited" and then Meaning (Kind_Radio, M_ACK, 1) = "to be acknowledged", "Meaning");
      Expect (Meaning (Kind_Radio, NID_PACKET, 0) = "Virtual Balise Cover marker", "NID_PACKET to the train");
      Expect (Meaning (Kind_Train, NID_PACKET, 0) = "Position Report", "NID_PACKET to the track");
      Expect (Version'Length >= 5 and then Version (Version'Last) /= Character'Val (0), "Version");
      Test_Name (Constraint_Error'Identity, "4294967295", "Name of no variable");
      Test_Meaning (Constraint_Error'Identity, "4294967295", "Meaning of no variable");
   end Test_Meanings;

   --  The short telegram at a position of a group.
   function Balise (Pig, Total : Unsigned_64; Dup : Unsigned_64 := 0; Counter : Unsigned_64 := 255; Bg : Unsigned_64 := 1) return Telegram is
      Sent : Field_Array := Fields (Kind_Short, Short);
   begin
      for F of Sent loop
         F.Number :=
           (if F.Var = N_PIG then Pig elsif F.Var = N_TOTAL then Total elsif F.Var = M_DUP then Dup
            elsif F.Var = M_MCOUNT then Counter elsif F.Var = NID_BG then Bg else F.Number);
      end loop;
      return To_Telegram (Kind_Short, From_Fields (Kind_Short, Sent));
   end Balise;

   procedure Test_Groups is
      Nobody : constant Telegram_Array (1 .. 0) := (others => <>);
      Both   : constant Group_Result := Assemble ((Balise (1, 1), Balise (0, 1)));
      First  : constant Group_Result := Assemble ((1 => Balise (0, 2)));

      procedure Clashes (Other : Telegram; Fault : Group_Fault) is
         Telegrams : constant Telegram_Array (7 .. 8) := (Balise (0, 1, Counter => 4), Other);
         Result    : constant Group_Result := Assemble (Telegrams);
      begin
         Expect (not Result.Is_Group and then Result.Index = 8 and then Result.Fault = Fault, "Assemble: " & Fault'Image);
      end Clashes;

      Broken : Telegram := Balise (1, 1);
   begin
      Expect (Both.Is_Group and then Both.Is_Complete and then Both.Missing = (0 .. 7 => False), "a complete group");
      Expect (First.Is_Group and then not First.Is_Complete and then First.Missing = (1 .. 2 => True, 0 | 3 .. 7 => False), "an incomplete group");
      Expect (Assemble (Nobody).Is_Group and then not Assemble (Nobody).Is_Complete, "an empty group");
      Clashes (Balise (3, 1), Position_After_Last);
      Clashes (Balise (1, 1, Dup => 1), No_Such_Duplicate);
      Clashes (Balise (1, 1, Bg => 2), Other_Group);
      Clashes (Balise (1, 2), Other_Total);
      Clashes (Balise (1, 1, Counter => 5), Other_Counter);
      Clashes (Balise (0, 1, Counter => 4, Dup => 1), Other_Telegram);
      Broken.Bytes (0) := 16#FF#;
      Clashes (Broken, Bit_Is_Refused);
      Expect (Names.To_String (Assemble ((1 => Broken)).Place.Name) = "M_VERSION", "the bit of a refused telegram");
   end Test_Groups;

begin
   Test_Item (Kind_Radio, Radio);
   Test_Item (Kind_Train, Train);
   Test_Item (Kind_Short, Short);
   Test_Item (Kind_Radio, Kept); --  its text and its JSON are longer than what is tried first
   Expect (Show (Kind_Radio, Kept)'Length > 8_192 and then To_Json (Kind_Radio, Kept)'Length > 8_192, "long texts");
   Test_Nested;
   Test_Refusals;
   Test_Lines;
   Test_Meanings;
   Test_Groups;
   Put_Line ("etcs.items:" & Count'Image & " checks," & Faults'Image & " faults");
end Test_Items;
