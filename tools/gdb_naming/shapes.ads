package Shapes is
   type Shape is abstract tagged record
      Name : Character;
   end record;
   function Area (S : Shape) return Float is abstract;
   type Circle is new Shape with record
      Radius : Float;
   end record;
   overriding function Area (S : Circle) return Float;
   function Area (Side : Integer) return Integer;
   function "+" (A, B : Circle) return Circle;
   type Vector is array (1 .. 3) of Float;
   type Kind (Big : Boolean := True) is record
      case Big is
         when True => Wide : Long_Float;
         when False => Small : Float;
      end case;
   end record;
   subtype Small is Integer range 0 .. 9;
   Limit : constant Integer := 12;
   Made : Small := 3;
   Origin : Vector := (others => 0.0);
   Usual : Kind;
private
   Hidden : Integer := 5;
end Shapes;
