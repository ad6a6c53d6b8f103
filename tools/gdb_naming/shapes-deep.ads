package Shapes.Deep is
   Count : Integer := 0;
   type Cell;
   type Link is access Cell;
   type Cell is record
      Next : Link;
      Value : Small;
   end record;
   procedure Push (To : in out Link; Value : Small);
   Failed : exception;
end Shapes.Deep;
