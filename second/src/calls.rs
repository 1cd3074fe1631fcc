//! The calls of the header as a table, one table for each side. The types of the table are the header's signatures, long as they are.
#![allow(clippy::type_complexity)]

use crate::proved;
use second::flat;

type Block<'a> = (&'a mut u16, &'a mut u32, &'a mut u32, &'a mut u32);

/// Every call but the words of a refusal, which the papers do not give. Both sides have the same signatures.
#[derive(Clone, Copy)]
pub struct Calls {
    pub frame_write: fn(u8, &[u8], &mut [u8], &mut usize) -> u8,
    pub frame_is_content: fn(&[u8]) -> u8,
    pub escapes: &'static [fn(u8) -> u8],
    pub reader_new: fn(&mut [u8]) -> u8,
    pub reader_step: fn(&mut [u8], u8, &mut u8, &mut usize) -> u8,
    pub reader_payload: fn(&[u8], usize, &mut usize) -> usize,
    pub ubf_read: fn(&[u8], Block) -> u8,
    pub ubf_block_at: fn(&[u8], usize, Block, &mut usize, &mut usize) -> u8,
    pub ubf_size: fn(u32, u32) -> usize,
    pub ubf_image: fn(&[u8], u32, u32, &mut usize) -> usize,
    pub ubf_texts: [fn(&[u8], &mut usize) -> usize; 4],
    pub ubf_write: fn(u16, u32, u32, [&[u8]; 5], &mut [u8], &mut usize) -> u8,
    pub module_open: fn(&mut [u8], &[u8]) -> u8,
    pub module_is_open: fn(&[u8]) -> u8,
    pub module_frame: fn(&mut [u8], u8, &[u8], &mut [u8], &mut [u8], &mut usize) -> u8,
    pub module_wait: fn(&mut [u8], u32, &mut [u8], &mut [u8], &mut usize) -> u8,
    pub host_open: HostOpen,
    pub host_frame: fn(&mut [u8], u8, &[u8], &[u8], &mut [u8], &mut usize, &mut u8) -> u8,
    pub host_line: fn(&mut [u8], &[u8], &[u8], &mut [u8], &mut usize, &mut u8) -> u8,
    pub host_wait: fn(&mut [u8], u32, &[u8], &mut [u8], &mut usize, &mut u8) -> u8,
    pub host_progress: fn(&[u8], &mut usize) -> usize,
    pub host_line_rate: fn(&[u8]) -> u8,
    pub host_can_arise: fn(&[u8]) -> u8,
    pub host_resent: fn(&[u8]) -> u32,
    pub restart_write: fn(&mut [u8], &mut usize) -> u8,
    pub caller_open: HostOpen,
    pub caller_hear: fn(&mut [u8], u8, &[u8], &mut [u8], &mut usize, &mut u8) -> u8,
    pub caller_wait: fn(&mut [u8], u32, &[u8], &mut [u8], &mut usize, &mut u8) -> u8,
    pub caller_view: fn(&[u8], &mut u8, &mut usize, &mut usize, &mut usize, &mut usize) -> u8,
    pub post_new: fn(&mut [u8]) -> u8,
    pub post_open: fn(&mut [u8], &[u8]) -> u8,
    pub post_hear: fn(&mut [u8], u8, &mut [u8], &mut [u8], &mut usize) -> u8,
    pub post_wait: fn(&mut [u8], u32, &mut [u8], &mut [u8], &mut usize) -> u8,
    pub post_view: fn(&[u8], &mut u16, &mut usize, &mut usize, &mut usize, &mut usize, &mut u8) -> u8,
    pub rate_agreed: fn(&[u8]) -> u8,
    pub type_address: fn(u16, &mut u32) -> u8,
    pub piece_for: fn(u32) -> usize,
}

pub type HostOpen = fn(&mut [u8], u16, &[u8], u8, usize, u8, u8, &mut [u8], &mut usize) -> u8;

macro_rules! table {
    ($side:ident) => {
        Calls {
            frame_write: $side::frame_write,
            frame_is_content: $side::frame_is_content,
            escapes: &[$side::escape_may_follow, $side::escape_original],
            reader_new: $side::reader_new,
            reader_step: $side::reader_step,
            reader_payload: $side::reader_payload,
            ubf_read: |bytes, (kind, length, start, check)| $side::ubf_read(bytes, kind, length, start, check),
            ubf_block_at: |file, n, (kind, length, start, check), place, count| {
                $side::ubf_block_at(file, n, kind, length, start, check, place, count)
            },
            ubf_size: $side::ubf_size,
            ubf_image: $side::ubf_image,
            ubf_texts: [$side::ubf_model, $side::ubf_version, $side::ubf_file_name, $side::ubf_date],
            ubf_write: |kind, address, start, [model, version, name, date, image], out, count| {
                $side::ubf_write(kind, address, start, model, version, name, date, image, out, count)
            },
            module_open: $side::module_open,
            module_is_open: $side::module_is_open,
            module_frame: $side::module_frame,
            module_wait: $side::module_wait,
            host_open: $side::host_open,
            host_frame: $side::host_frame,
            host_line: $side::host_line,
            host_wait: $side::host_wait,
            host_progress: $side::host_progress,
            host_line_rate: $side::host_line_rate,
            host_can_arise: $side::host_can_arise,
            host_resent: $side::host_resent,
            restart_write: $side::restart_write,
            caller_open: $side::caller_open,
            caller_hear: $side::caller_hear,
            caller_wait: $side::caller_wait,
            caller_view: $side::caller_view,
            post_new: $side::post_new,
            post_open: $side::post_open,
            post_hear: $side::post_hear,
            post_wait: $side::post_wait,
            post_view: $side::post_view,
            rate_agreed: $side::rate_agreed,
            type_address: $side::type_address,
            piece_for: $side::piece_for,
        }
    };
}

pub static SECOND: Calls = table!(flat);
pub static PROVED: Calls = table!(proved);

/// The second program's calls, then the proved ones.
pub static SIDES: [&Calls; 2] = [&SECOND, &PROVED];
