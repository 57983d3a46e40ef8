//! board: every one of the 2^32 numbers read and written again, for both units; each float read must be the number times the unit.

use drive::board::unit;
use drive::ffi::{slew_board_part, slew_board_read};

fn main() {
    let mut wrong = 0u64;
    for coarse in [false, true] {
        let one = unit(coarse);
        let mut count = 0u64;
        for n in i32::MIN..=i32::MAX {
            let x = slew_board_read(n, coarse);
            let mut again = 0;
            let number = slew_board_part(x, coarse, &mut again);
            count += 1;
            if number != 0 || again != n || x != f64::from(n) * one {
                wrong += 1;
                if wrong <= 5 {
                    println!("{n}: read as {x:e}, written as {again}, number {number}");
                }
            }
        }
        println!("units of 2^{}: {count} numbers read and written again", if coarse { -20 } else { -30 });
    }
    println!("{wrong} of them wrong");
    std::process::exit(i32::from(wrong > 0));
}
