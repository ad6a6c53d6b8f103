package body Stacks is
   Held : array (1 .. 10) of Item;
   Top : Natural := 0;
   procedure Push (I : Item) is begin Top := Top + 1; Held (Top) := I; end Push;
   function Pop return Item is begin Top := Top - 1; return Held (Top + 1); end Pop;
end Stacks;
