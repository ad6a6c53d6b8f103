module beside;
private int hidden = 3;
struct Node { Node* next; int value; }
package struct Kept { enum Level { low, high } Level level; }
int deep(int n) { Node node = Node(null, n); return node.value + hidden + other!int(n); }
T other(T)(T n) { return n; }
final class Single { private static Single one; static Single get() { if (!one) one = new Single; return one; } }
