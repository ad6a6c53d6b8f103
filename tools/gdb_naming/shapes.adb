package body Shapes is
   Calls : Integer := 0;
   package Inside is
      Depth : Integer := 1;
      procedure Go;
   end Inside;
   package body Inside is
      procedure Go is begin Depth := Depth + Hidden; end Go;
   end Inside;
   function Area (S : Circle) return Float is
   begin
      Calls := Calls + 1;
      Inside.Go;
      return S.Radius * S.Radius * 3.0;
   end Area;
   function Area (Side : Integer) return Integer is (Side * Side);
   function "+" (A, B : Circle) return Circle is (Name => A.Name, Radius => A.Radius + B.Radius);
end Shapes;
