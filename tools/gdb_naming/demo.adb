with Ada.Text_IO;
with Shapes; use Shapes;
with Shapes.Deep;
with Stacks;
procedure Demo is
   package Numbers is new Stacks (Integer);
   type Mood is (Calm, 'x', Angry);
   Feeling : Mood := Calm;
   Total : Float := 0.0;
   procedure Add (S : Shape'Class) is
      Times : Integer := 1;
      function Twice (N : Float) return Float is
         type Local is record Kept : Float; end record;
         L : Local := (Kept => N * 2.0);
      begin
         return L.Kept;
      end Twice;
   begin
      Total := Total + Twice (Area (S)) * Float (Times);
   end Add;
   C : Circle := (Name => 'c', Radius => 2.0);
   task Worker is
      entry Start (N : Integer);
   end Worker;
   task body Worker is
      Seen : Integer := 0;
   begin
      accept Start (N : Integer) do
         Seen := N;
      end Start;
      Shapes.Deep.Count := Seen;
   end Worker;
   protected Guarded is
      procedure Put (N : Integer);
      function Get return Integer;
      entry Wait;
   private
      Value : Integer := 0;
   end Guarded;
   protected body Guarded is
      procedure Put (N : Integer) is begin Value := N; end Put;
      function Get return Integer is (Value);
      entry Wait when Value > 0 is begin null; end Wait;
   end Guarded;
begin
   Worker.Start (3);
   Add (C);
   Numbers.Push (3);
   Guarded.Put (Numbers.Pop);
   declare
      In_Block : Integer := Guarded.Get;
      function Nested (N : Integer) return Integer is (N + In_Block);
   begin
      Ada.Text_IO.Put_Line (Integer'Image (Nested (1)) & Float'Image (Total) & Mood'Image (Feeling));
   end;
end Demo;
