//! A library without the standard library, so that its debug information is its own.
#![no_std]

pub mod shapes {
    pub enum Colour {
        Red,
        Green(u8),
    }

    pub struct Pair<T> {
        pub first: T,
        pub second: T,
    }

    impl Pair<u32> {
        #[inline(never)]
        pub fn sum(&self) -> u32 {
            self.first.wrapping_add(self.second)
        }
    }

    pub static COUNT: u32 = 3;
}

fn chosen(colour: &shapes::Colour) -> u32 {
    match colour {
        shapes::Colour::Red => 1,
        shapes::Colour::Green(shade) => u32::from(*shade),
    }
}

#[no_mangle]
pub extern "C" fn total(shade: u8) -> u32 {
    let areas = shapes::Pair { first: chosen(&shapes::Colour::Green(shade)), second: chosen(&shapes::Colour::Red) };
    areas.sum().wrapping_add(shapes::COUNT)
}

#[panic_handler]
fn stopped(_: &core::panic::PanicInfo) -> ! {
    loop {}
}
