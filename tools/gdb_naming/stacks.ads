generic
   type Item is private;
package Stacks is
   procedure Push (I : Item);
   function Pop return Item;
end Stacks;
