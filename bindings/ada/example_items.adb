--  Shows a message, changes one of its variables, writes it, and shows why another is refused; then reads lines of a log and
--  a group.
with Ada.Exceptions; use Ada.Exceptions;
with Ada.Text_IO;    use Ada.Text_IO;
with Interfaces;     use Interfaces;
with Etcs;           use Etcs;
with Etcs.Items;     use Etcs.Items;
with Etcs.Variables; use Etcs.Variables;

procedure Example_Items is

   --  message 16 with NID_EM 5
   Message : constant Byte_Array := Line_Bytes ("1002800000000008002A");

   procedure Read_Line (Line : String) is
   begin
      if Digits_Of (Line) /= Digits_There then
         Put_Line (Line & ": " & Digits_Of (Line)'Image);
         return;
      end if;
      declare
         Bytes   : constant Byte_Array := Line_Bytes (Line);
         Verdict : constant Check_Result := Check (Kind_Radio, Bytes);
      begin
         Put (Line_Front (Line) & ": ");
         case Verdict.Outcome is
            when Item_Whole =>
               Put_Line ("a message of" & Verdict.Length'Image & " bytes");
            when Item_Truncated =>
               Put_Line ("a message that ends after" & Bytes'Length'Image & " bytes");
            when Item_Refused =>
               Put ("bit" & Verdict.Place.Bit'Image & ", " & Names.To_String (Verdict.Place.Name) & ": ");
               Put_Line (Explain (Kind_Radio, Bytes));
         end case;
      end;
   end Read_Line;

   procedure Change is
      Sent : Field_Array := Fields (Kind_Radio, Message);
   begin
      for F of Sent loop
         if F.Var = NID_EM then
            F.Number := 6;
         end if;
      end loop;
      Put_Line (To_Hex (From_Fields (Kind_Radio, Sent)));
   end Change;

   procedure Show_Refusal is
      Refused : constant Refusal_Result := Refusal (Kind_Radio, Line_Bytes ("1002C00000000008002A"));
   begin
      if Refused.Is_Refused and then Refused.Reason.Above.Is_There then
         Put_Line (Names.To_String (Refused.Place.Name) & ": the next number above is" & Refused.Reason.Above.Value'Image);
      end if;
   end Show_Refusal;

   procedure Read_Group is
      First  : constant Byte_Array := Line_Bytes ("A0007F802000CB200C7FFFFFFFFFFFFFFFFFFFFFFFFFFFFFFFFFC0");
      Result : constant Group_Result := Assemble ((1 => To_Telegram (Kind_Short, First)));
   begin
      if Result.Is_Group then
         Put_Line ((if Result.Is_Complete then "complete" else "incomplete"));
      else
         Put_Line ("telegram" & Result.Index'Image & ": " & Result.Fault'Image);
      end if;
   end Read_Group;

begin
   Put (Show (Kind_Radio, Message));
   Change;
   Put_Line (To_Hex (From_Json (Kind_Radio, To_Json (Kind_Radio, Message))));
   begin
      Put_Line (Show (Kind_Radio, Line_Bytes ("1002C0")));
   exception
      when Fault : Refused_Item => Put_Line (Exception_Message (Fault));
   end;
   Show_Refusal;
   Read_Line ("12:00:03 1002800000000008002A");
   Read_Line ("12:00:04 100280");
   Read_Line ("12:00:05 1002C00000000008002A");
   Read_Line ("# a comment");
   Put_Line (Name (M_ACK) & " 1: " & Meaning (Kind_Radio, M_ACK, 1));
   Read_Group;
end Example_Items;
