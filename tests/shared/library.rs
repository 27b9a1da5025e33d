//! The calls of the libraries, made safe. No other module has unsafe code. All are inline, so
//! that programs without a call need no library.
//!
//! A slice that a call only reads is lent for writing too, so that a library that writes into it
//! does no harm here and can be caught.

use crate::numbers::Numbers;

mod c {
    extern "C" {
        pub fn setup(
            leads: u32,
            volts: u32,
            amperes: u32,
            resistance: u32,
            volts_error: u32,
            amperes_error: u32,
            state: *mut u8,
            bytes: usize,
        ) -> u32;
        pub fn tick(s: *mut u8, sn: usize, i: *const u8, n: usize, o: *mut u8, on: usize) -> u32;
        pub fn take_orders(t: *const u8, tn: usize, o: *mut u8, on: usize) -> u32;
        pub fn refused_line(t: *const u8, tn: usize) -> u32;
        pub fn plug_sense(s: *mut u8, sn: usize, value: u32, p: *mut u8, pn: usize) -> u32;
    }
}

#[inline]
pub fn setup(n: &Numbers, state: &mut [u8]) -> u32 {
    let (pointer, length) = (state.as_mut_ptr(), state.len());
    // SAFETY: the pointer and the length are those of a slice lent for the call.
    unsafe {
        c::setup(
            n.leads,
            n.volts,
            n.amperes,
            n.resistance,
            n.volts_error,
            n.amperes_error,
            pointer,
            length,
        )
    }
}

#[inline]
pub fn tick(state: &mut [u8], input: &mut [u8], output: &mut [u8]) -> u32 {
    let (s, i, o) = (state.as_mut_ptr(), input.as_mut_ptr(), output.as_mut_ptr());
    // SAFETY: each pointer and length are those of a slice lent for the call; the three slices do
    // not overlap.
    unsafe { c::tick(s, state.len(), i, input.len(), o, output.len()) }
}

#[inline]
pub fn take_orders(text: &mut [u8], orders: &mut [u8]) -> u32 {
    let (t, o) = (text.as_mut_ptr(), orders.as_mut_ptr());
    // SAFETY: each pointer and length are those of a slice lent for the call; the two slices do
    // not overlap.
    unsafe { c::take_orders(t, text.len(), o, orders.len()) }
}

#[inline]
pub fn refused_line(text: &mut [u8]) -> u32 {
    let (t, bytes) = (text.as_mut_ptr(), text.len());
    // SAFETY: the pointer and the length are those of a slice lent for the call.
    unsafe { c::refused_line(t, bytes) }
}

#[inline]
pub fn plug_sense(state: &mut [u8], millivolts: u32, plug: &mut [u8]) -> u32 {
    let (s, p) = (state.as_mut_ptr(), plug.as_mut_ptr());
    // SAFETY: each pointer and length are those of a slice lent for the call; the two slices do
    // not overlap.
    unsafe { c::plug_sense(s, state.len(), millivolts, p, plug.len()) }
}

/// The six calls of the receive chip. In each the slices do not overlap.
pub mod receiver {
    mod c {
        extern "C" {
            pub fn receiver_power_up(r: *mut u8, rn: usize) -> u32;
            pub fn receiver_read(r: *const u8, rn: usize, k: u32, v: *mut u8, vn: usize) -> u32;
            pub fn receiver_write(r: *mut u8, rn: usize, k: u32, value: u8) -> u32;
            pub fn receiver_arrive(r: *mut u8, rn: usize, f: *const u8, n: usize) -> u32;
            pub fn receiver_drain(r: *mut u8, rn: usize, f: *mut u8, n: usize) -> u32;
            pub fn receiver_line(r: *const u8, rn: usize, l: *mut u8, ln: usize) -> u32;
        }
    }

    #[inline]
    pub fn power_up(receiver: &mut [u8]) -> u32 {
        let (r, bytes) = (receiver.as_mut_ptr(), receiver.len());
        // SAFETY: the pointer and the length are those of a slice lent for the call.
        unsafe { c::receiver_power_up(r, bytes) }
    }

    #[inline]
    pub fn read(receiver: &mut [u8], number: u32, value: &mut [u8]) -> u32 {
        let (r, v) = (receiver.as_mut_ptr(), value.as_mut_ptr());
        // SAFETY: each pointer and length are those of a slice lent for the call.
        unsafe { c::receiver_read(r, receiver.len(), number, v, value.len()) }
    }

    #[inline]
    pub fn write(receiver: &mut [u8], number: u32, value: u8) -> u32 {
        let (r, bytes) = (receiver.as_mut_ptr(), receiver.len());
        // SAFETY: the pointer and the length are those of a slice lent for the call.
        unsafe { c::receiver_write(r, bytes, number, value) }
    }

    #[inline]
    pub fn arrive(receiver: &mut [u8], frame: &mut [u8]) -> u32 {
        let (r, f) = (receiver.as_mut_ptr(), frame.as_mut_ptr());
        // SAFETY: each pointer and length are those of a slice lent for the call.
        unsafe { c::receiver_arrive(r, receiver.len(), f, frame.len()) }
    }

    #[inline]
    pub fn drain(receiver: &mut [u8], frame: &mut [u8]) -> u32 {
        let (r, f) = (receiver.as_mut_ptr(), frame.as_mut_ptr());
        // SAFETY: each pointer and length are those of a slice lent for the call.
        unsafe { c::receiver_drain(r, receiver.len(), f, frame.len()) }
    }

    #[inline]
    pub fn line(receiver: &mut [u8], line: &mut [u8]) -> u32 {
        let (r, l) = (receiver.as_mut_ptr(), line.as_mut_ptr());
        // SAFETY: each pointer and length are those of a slice lent for the call.
        unsafe { c::receiver_line(r, receiver.len(), l, line.len()) }
    }
}
