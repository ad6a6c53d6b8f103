mod shapes {
    pub trait Area { fn area(&self) -> f64; fn double(&self) -> f64 { 2.0 * self.area() } }
    #[derive(Debug, Clone, PartialEq)]
    pub struct Circle { pub radius: f64 }
    #[derive(Debug)]
    pub enum Shape { Round(Circle), Square { side: u32 }, Nothing }
    impl Area for Circle { fn area(&self) -> f64 { self.radius * self.radius * 3.0 } }
    impl Shape { pub const LIMIT: usize = 4; pub fn sides(&self) -> usize { match self { Shape::Square { side } => *side as usize, _ => 0 } } }
    pub mod deep { pub static mut COUNT: u64 = 0; pub fn counted<T: Into<u64>>(by: T) -> u64 { unsafe { COUNT += by.into(); COUNT } } }
    pub union Word { pub whole: u32, pub parts: [u8; 4] }
}
use shapes::{deep, Area, Circle, Shape};
static GREETING: &str = "hello";
thread_local! { static LOCAL: std::cell::Cell<i32> = std::cell::Cell::new(1); }
struct Pair<A, B>(A, B);
impl<A: Copy, B> Pair<A, B> { fn first(&self) -> A { self.0 } }
#[inline(never)]
fn total(of: &[Box<dyn Area>]) -> f64 { of.iter().map(|each| each.double()).sum() }
#[no_mangle]
pub extern "C" fn c_linkage(n: i32) -> i32 { fn inside(n: i32) -> i32 { n + 1 } inside(n) }
fn main() {
    let shapes = [Shape::Round(Circle { radius: 2.0 }), Shape::Square { side: 3 }, Shape::Nothing];
    let word = shapes::Word { whole: 3 };
    let sides: usize = shapes.iter().map(Shape::sides).sum();
    LOCAL.with(|n| n.set(n.get() + Pair(3, "x").first() + Pair(1u8, 'c').1 as i32));
    println!("{} {:?} {} {}", GREETING, shapes, sides + Shape::LIMIT, total(&[Box::new(Circle { radius: 1.5 })]));
    println!("{} {}", deep::counted(3u32) + deep::counted(4u8), c_linkage(unsafe { word.whole } as i32));
}
