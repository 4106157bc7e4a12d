//! The five steps of document 01, shared by the device and the recorder.

#![allow(dead_code)] // a program that takes this module in need not use all of it

/// "Read, address", "Write, address, data", "Work, n", "Supply (VPP) on or
/// off", "Reset".
#[derive(Clone, Copy, Debug, PartialEq, Eq)]
pub enum Step {
    Read(u32),
    Write(u32, u16),
    Work(u32),
    Supply(bool),
    Reset,
}
