procedure Demo is
   type Colour is (Red, Green, Blue);

   package Shapes is
      type Point is record
         X, Y : Integer;
      end record;
      Count : Integer := 0;
      function Area (P : Point; C : Colour) return Integer;
   end Shapes;

   package body Shapes is
      function Square (N : Integer) return Integer is
      begin
         return N * N;
      end Square;

      function Area (P : Point; C : Colour) return Integer is
      begin
         Count := Count + 1;
         return Square (P.X) + Square (P.Y) + Colour'Pos (C);
      end Area;
   end Shapes;

   Origin : constant Shapes.Point := (X => 1, Y => 2);
   Total  : Integer := 0;
begin
   Total := Shapes.Area (Origin, Blue) + Shapes.Count;
   if Total < 0 then
      raise Program_Error;
   end if;
end Demo;
