package body Shapes.Deep is
   procedure Push (To : in out Link; Value : Small) is
      procedure Check is
      begin
         if Value = 9 then raise Failed; end if;
      end Check;
   begin
      Check;
      To := new Cell'(Next => To, Value => Value);
   end Push;
end Shapes.Deep;
