//! How much stack each call uses at the most: it runs on a painted stack, and the paint that is gone is counted.
//! For x86-64 with the System V calling convention.

use crate::library::{loft_cut_flat, loft_cut_mould, loft_split_flat, loft_split_mould, loft_store_flat, loft_store_mould};
use crate::library::{Answer, RangeWords};
use crate::lines::SHAPES;
use std::arch::asm;

const SIZE: usize = 64 * 1024;
const PAINT: u8 = 0xA5;
const COUNT: usize = 4096;

#[repr(align(64))]
struct Stack([u8; SIZE]);

/// Calls the function at an address with its arguments, on a painted stack, and answers how many bytes were touched:
/// the arguments that do not fit into registers, the return address, and all that the call uses.
///
/// # Safety
/// The function takes these arguments, as 64-bit words, and answers an `Answer`; what they point to is lent to the call.
unsafe fn touched(function: *const (), arguments: &[u64]) -> (Answer, usize) {
    let mut answer = Answer::default();
    let mut words = vec![&raw mut answer as u64];
    words.extend_from_slice(arguments);
    let (registers, rest) = words.split_at(6);
    let mut stack = Box::new(Stack([PAINT; SIZE]));
    // The stack is aligned to 16 bytes at a call.
    let room = 16 * rest.len().div_ceil(2);
    for (place, word) in stack.0[SIZE - room..].chunks_exact_mut(8).zip(rest) {
        place.copy_from_slice(&word.to_le_bytes());
    }
    let top = stack.0.as_mut_ptr().add(SIZE - room);
    // r12 to r15 are kept by the call.
    asm!(
        "mov r12, rsp",
        "mov rsp, r13",
        "call r14",
        "mov rsp, r12",
        out("r12") _,
        in("r13") top,
        in("r14") function,
        in("rdi") registers[0],
        in("rsi") registers[1],
        in("rdx") registers[2],
        in("rcx") registers[3],
        in("r8") registers[4],
        in("r9") registers[5],
        clobber_abi("C"),
    );
    let untouched = stack.0.iter().take_while(|byte| **byte == PAINT).count();
    (answer, SIZE - untouched)
}

/// The greatest of each call of one kind over the largest inputs: each shape, predictor and packing.
fn greatest<const A: usize>([cut, split, store]: [*const (); 3]) -> [usize; 3] {
    let range = RangeWords { bits: 24, lower: 0xC780_0000, upper: 0x4780_0000 };
    let mut most = [0; 3];
    let mut note = |call: usize, (answer, bytes): (Answer, usize)| {
        assert_eq!(answer.refusal, 0, "the largest inputs are accepted");
        most[call] = most[call].max(bytes);
        answer
    };
    for shape in SHAPES {
        let line = shape.line::<A>(COUNT);
        let design: Vec<[i32; A]> = line.iter().map(|p| p.map(|c| 16 * c)).collect();
        let (mut points, mut marks) = (vec![[0i32; A]; COUNT], vec![0u8; COUNT]);
        let mut program = vec![0u8; COUNT * (1 + 4 * A) + 3];
        let (mut work, mut file) = (vec![0i32; COUNT], vec![0u8; 9 + A * (20 + 4 * COUNT)]);
        let n = COUNT as u64;
        // SAFETY: each pointer stands with its list's own length, in the order of `controller.h`.
        unsafe {
            note(1, touched(split, &[line.as_ptr() as u64, n, n, 0, marks.as_mut_ptr() as u64, n]));
            for (predictor, packing) in (0..9).flat_map(|p| [(p, 0), (p, 1)]) {
                let mut storing = vec![design.as_ptr() as u64, n, predictor, packing];
                storing.extend([&raw const range as u64; A]);
                storing.extend([work.as_mut_ptr() as u64, n, file.as_mut_ptr() as u64, file.len() as u64]);
                let stored = note(2, touched(store, &storing));
                let mut cutting = vec![file.as_ptr() as u64, stored.length as u64, predictor, packing, 0];
                cutting.extend([points.as_mut_ptr() as u64, n, marks.as_mut_ptr() as u64, n]);
                cutting.extend([program.as_mut_ptr() as u64, program.len() as u64]);
                note(0, touched(cut, &cutting));
            }
        }
    }
    most
}

pub fn run() {
    println!("\nStack, greatest over three shapes of {COUNT} vertices and all pairings, in bytes, with arguments and return address:\n");
    println!("| call | flat | mould |");
    println!("|---|---|---|");
    let flat = greatest::<2>([loft_cut_flat as *const (), loft_split_flat as *const (), loft_store_flat as *const ()]);
    let mould = greatest::<3>([loft_cut_mould as *const (), loft_split_mould as *const (), loft_store_mould as *const ()]);
    for (call, (flat, mould)) in ["cut", "split", "store"].iter().zip(flat.iter().zip(mould)) {
        println!("| {call} | {flat} | {mould} |");
    }
}
