--  A print spooler: jobs wait for a printer, short ones first; each gets a number, by which it can be withdrawn.
--  SPDX-License-Identifier: MIT

package Printing is

   subtype Pages is Integer range 1 .. 500;
   subtype Job_Number is Natural range 0 .. 9_999;
   None : constant Job_Number := 0;

   type Job is record
      Number : Job_Number := None;
      Length : Pages := 1;
   end record;
   type Job_Array is array (1 .. 3) of Job;

   type Log is record
      Printed, Withdrawn : Natural := 0;
   end record;

   No_Such_Job : exception;

   protected Spooler is
      entry Submit (Length : in Pages; Number : out Job_Number);
      entry Take (Number : out Job_Number; Length : out Pages);
      procedure Withdraw (Number : in Job_Number);
      procedure Close;
      function Waiting return Natural;
      function Printed_Pages return Natural;
      function Percent_Withdrawn return Natural;
   private
      function Free_Place return Natural;
      Jobs          : Job_Array;
      Last          : Job_Number := None;
      Pages_Printed : Natural := 0;
      Book          : Log;
      Closed        : Boolean := False;
   end Spooler;

end Printing;

package body Printing is

   protected body Spooler is

      function Free_Place return Natural is
      begin
         for P in Jobs'Range loop
            if Jobs (P).Number = None then
               return P;
            end if;
         end loop;
         return 0;
      end Free_Place;

      function Waiting return Natural is
      begin
         return Sum : Natural := 0 do
            for J of Jobs loop
               Sum := Sum + Boolean'Pos (J.Number /= None);
            end loop;
         end return;
      end Waiting;

      entry Submit (Length : in Pages; Number : out Job_Number) when Closed or else Free_Place /= 0 is
      begin
         if Closed then
            raise Program_Error;
         end if;
         Last := Last + 1;
         Jobs (Free_Place) := (Last, Length);
         Number := Last;
      end Submit;

      entry Take (Number : out Job_Number; Length : out Pages) when Waiting > 0 is
         Best : Natural := 0;
      begin
         for P in Jobs'Range loop
            if Jobs (P).Number /= None
              and then (Best = 0 or else Jobs (P).Length < Jobs (Best).Length
                        or else (Jobs (P).Length = Jobs (Best).Length and then Jobs (P).Number < Jobs (Best).Number))
            then
               Best := P;
            end if;
         end loop;
         Number := Jobs (Best).Number;
         Length := Jobs (Best).Length;
         Jobs (Best).Number := None;
         Pages_Printed := Pages_Printed + Length;
         Book.Printed := Book.Printed + 1;
      end Take;

      procedure Withdraw (Number : in Job_Number) is
         P : Positive := Jobs'First;
      begin
         loop
            exit when Jobs (P).Number = Number and Number /= None;
            P := P + 1;
            if P > Jobs'Last then
               raise No_Such_Job with Job_Number'Image (Number);
            end if;
         end loop;
         Jobs (P) := (Number => None, Length => 1);
         Book.Withdrawn := Book.Withdrawn + 1;
      end Withdraw;

      procedure Close is
      begin
         Closed := True;
      end Close;

      function Printed_Pages return Natural is (Pages_Printed);

      function Percent_Withdrawn return Natural is (100 * Book.Withdrawn / (Book.Withdrawn + Book.Printed));

   end Spooler;

end Printing;
