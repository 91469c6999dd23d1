//! Delkuthi, a monitor for TADL2 timing constraints, for machines that the proved library is not compiled for.
//!
//! `make portable` wrote this crate from the sources of the proved library, without their contracts: a module for each of its
//! crates. The proofs cover those sources on a machine with sizes of 64 bits. This crate is tested: its answers are compared
//! with the proved library's, call by call. The interface is `include/delkuthi.h`; `README.md` says how to build it.
#![no_std]
#![allow(dead_code, unused_imports, unused_variables, unused_unsafe, overflowing_literals, clippy::all)]

@MODULES@
/// With sizes of 64 bits nothing here panics: that is part of what is proved. With sizes of 32 bits no test made it panic. If it
/// did, the machine would stop at an instruction that traps; it would not go on with a wrong number.
#[panic_handler]
fn panic(_: &core::panic::PanicInfo) -> ! {
    #[cfg(target_arch = "x86_64")]
    unsafe {
        core::arch::asm!("ud2")
    };
    #[cfg(target_arch = "aarch64")]
    unsafe {
        core::arch::asm!("brk #1")
    };
    #[cfg(target_arch = "arm")]
    unsafe {
        core::arch::asm!("udf #1")
    };
    #[cfg(any(target_arch = "riscv32", target_arch = "riscv64"))]
    unsafe {
        core::arch::asm!("unimp")
    };
    loop {}
}
