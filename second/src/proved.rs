//! The proved library, called over its C interface. Each wrapper has the signature of the call of the same name in `second::flat`.

/// The calls as the header declares them: a slice is its pointer and then its length; a truth value is read as the number 1 or 0.
mod c {
    #[link(name = "exports", kind = "static")]
    extern "C" {
        pub fn zrn_frame_write(command: u8, p: *const u8, pn: usize, out: *mut u8, on: usize, count: *mut usize) -> u8;
        pub fn zrn_frame_is_content(content: *const u8, n: usize) -> u8;
        pub fn zrn_escape_may_follow(byte: u8) -> u8;
        pub fn zrn_escape_original(byte: u8) -> u8;

        pub fn zrn_reader_new(state: *mut u8, n: usize) -> u8;
        pub fn zrn_reader_step(state: *mut u8, n: usize, byte: u8, command: *mut u8, count: *mut usize) -> u8;
        pub fn zrn_reader_payload(state: *const u8, n: usize, count: usize, place: *mut usize) -> usize;

        pub fn zrn_ubf_read(
            block: *const u8,
            n: usize,
            kind: *mut u16,
            length: *mut u32,
            start: *mut u32,
            check: *mut u32,
        ) -> u8;
        pub fn zrn_ubf_block_at(
            file: *const u8,
            n: usize,
            wanted: usize,
            kind: *mut u16,
            length: *mut u32,
            start: *mut u32,
            check: *mut u32,
            place: *mut usize,
            count: *mut usize,
        ) -> u8;
        pub fn zrn_ubf_size(start: u32, length: u32) -> usize;
        pub fn zrn_ubf_image(block: *const u8, n: usize, start: u32, length: u32, place: *mut usize) -> usize;
        pub fn zrn_ubf_model(block: *const u8, n: usize, place: *mut usize) -> usize;
        pub fn zrn_ubf_version(block: *const u8, n: usize, place: *mut usize) -> usize;
        pub fn zrn_ubf_file_name(block: *const u8, n: usize, place: *mut usize) -> usize;
        pub fn zrn_ubf_date(block: *const u8, n: usize, place: *mut usize) -> usize;
        pub fn zrn_ubf_write(
            kind: u16,
            address: u32,
            start: u32,
            model: *const u8,
            model_n: usize,
            version: *const u8,
            version_n: usize,
            name: *const u8,
            name_n: usize,
            date: *const u8,
            date_n: usize,
            image: *const u8,
            image_n: usize,
            out: *mut u8,
            out_n: usize,
            count: *mut usize,
        ) -> u8;

        pub fn zrn_module_open(state: *mut u8, n: usize, flash: *const u8, flash_n: usize) -> u8;
        pub fn zrn_module_is_open(state: *const u8, n: usize) -> u8;
        pub fn zrn_module_frame(
            state: *mut u8,
            n: usize,
            command: u8,
            payload: *const u8,
            payload_n: usize,
            flash: *mut u8,
            flash_n: usize,
            reply: *mut u8,
            reply_n: usize,
            count: *mut usize,
        ) -> u8;
        pub fn zrn_module_wait(
            state: *mut u8,
            n: usize,
            ms: u32,
            flash: *mut u8,
            flash_n: usize,
            reply: *mut u8,
            reply_n: usize,
            count: *mut usize,
        ) -> u8;

        pub fn zrn_host_open(
            state: *mut u8,
            n: usize,
            kind: u16,
            image: *const u8,
            image_n: usize,
            first: u8,
            wish: usize,
            start: u8,
            same: u8,
            out: *mut u8,
            out_n: usize,
            count: *mut usize,
        ) -> u8;
        pub fn zrn_host_frame(
            state: *mut u8,
            n: usize,
            command: u8,
            payload: *const u8,
            payload_n: usize,
            image: *const u8,
            image_n: usize,
            out: *mut u8,
            out_n: usize,
            count: *mut usize,
            passed: *mut u8,
        ) -> u8;
        pub fn zrn_host_line(
            state: *mut u8,
            n: usize,
            line: *const u8,
            line_n: usize,
            image: *const u8,
            image_n: usize,
            out: *mut u8,
            out_n: usize,
            count: *mut usize,
            passed: *mut u8,
        ) -> u8;
        pub fn zrn_host_wait(
            state: *mut u8,
            n: usize,
            ms: u32,
            image: *const u8,
            image_n: usize,
            out: *mut u8,
            out_n: usize,
            count: *mut usize,
            passed: *mut u8,
        ) -> u8;
        pub fn zrn_host_progress(state: *const u8, n: usize, total: *mut usize) -> usize;
        pub fn zrn_host_line_rate(state: *const u8, n: usize) -> u8;
        pub fn zrn_host_can_arise(state: *const u8, n: usize) -> u8;
        pub fn zrn_host_resent(state: *const u8, n: usize) -> u32;
        pub fn zrn_restart_write(out: *mut u8, out_n: usize, count: *mut usize) -> u8;

        pub fn zrn_caller_open(
            state: *mut u8,
            n: usize,
            kind: u16,
            image: *const u8,
            image_n: usize,
            first: u8,
            wish: usize,
            start: u8,
            same: u8,
            out: *mut u8,
            out_n: usize,
            count: *mut usize,
        ) -> u8;
        pub fn zrn_caller_hear(
            state: *mut u8,
            n: usize,
            byte: u8,
            image: *const u8,
            image_n: usize,
            out: *mut u8,
            out_n: usize,
            count: *mut usize,
            passed: *mut u8,
        ) -> u8;
        pub fn zrn_caller_wait(
            state: *mut u8,
            n: usize,
            ms: u32,
            image: *const u8,
            image_n: usize,
            out: *mut u8,
            out_n: usize,
            count: *mut usize,
            passed: *mut u8,
        ) -> u8;
        pub fn zrn_caller_view(
            state: *const u8,
            n: usize,
            rate: *mut u8,
            accepted: *mut usize,
            total: *mut usize,
            resent: *mut usize,
            dropped: *mut usize,
        ) -> u8;

        pub fn zrn_post_new(state: *mut u8, n: usize) -> u8;
        pub fn zrn_post_open(state: *mut u8, n: usize, flash: *const u8, flash_n: usize) -> u8;
        pub fn zrn_post_hear(
            state: *mut u8,
            n: usize,
            byte: u8,
            flash: *mut u8,
            flash_n: usize,
            reply: *mut u8,
            reply_n: usize,
            count: *mut usize,
        ) -> u8;
        pub fn zrn_post_wait(
            state: *mut u8,
            n: usize,
            ms: u32,
            flash: *mut u8,
            flash_n: usize,
            reply: *mut u8,
            reply_n: usize,
            count: *mut usize,
        ) -> u8;
        pub fn zrn_post_view(
            state: *const u8,
            n: usize,
            kind: *mut u16,
            base: *mut usize,
            length: *mut usize,
            written: *mut usize,
            dropped: *mut usize,
            idle: *mut u8,
        ) -> u8;
        pub fn zrn_rate_agreed(reply: *const u8, reply_n: usize) -> u8;
        pub fn zrn_type_address(kind: u16, address: *mut u32) -> u8;
        pub fn zrn_piece_for(baud: u32) -> usize;
    }
}

// Every wrapper below passes pointers that are valid for the lengths beside them, never null, and taken from references that do not
// overlap: that is all the header asks.

pub fn frame_write(command: u8, payload: &[u8], out: &mut [u8], count: &mut usize) -> u8 {
    unsafe { c::zrn_frame_write(command, payload.as_ptr(), payload.len(), out.as_mut_ptr(), out.len(), count) }
}

pub fn frame_is_content(content: &[u8]) -> u8 {
    unsafe { c::zrn_frame_is_content(content.as_ptr(), content.len()) }
}

pub fn escape_may_follow(byte: u8) -> u8 {
    unsafe { c::zrn_escape_may_follow(byte) }
}

pub fn escape_original(byte: u8) -> u8 {
    unsafe { c::zrn_escape_original(byte) }
}

pub fn reader_new(state: &mut [u8]) -> u8 {
    unsafe { c::zrn_reader_new(state.as_mut_ptr(), state.len()) }
}

pub fn reader_step(state: &mut [u8], byte: u8, command: &mut u8, count: &mut usize) -> u8 {
    unsafe { c::zrn_reader_step(state.as_mut_ptr(), state.len(), byte, command, count) }
}

pub fn reader_payload(state: &[u8], count: usize, place: &mut usize) -> usize {
    unsafe { c::zrn_reader_payload(state.as_ptr(), state.len(), count, place) }
}

pub fn ubf_read(bytes: &[u8], kind: &mut u16, length: &mut u32, start: &mut u32, check: &mut u32) -> u8 {
    unsafe { c::zrn_ubf_read(bytes.as_ptr(), bytes.len(), kind, length, start, check) }
}

#[allow(clippy::too_many_arguments)]
pub fn ubf_block_at(
    file: &[u8],
    n: usize,
    kind: &mut u16,
    length: &mut u32,
    start: &mut u32,
    check: &mut u32,
    place: &mut usize,
    count: &mut usize,
) -> u8 {
    unsafe { c::zrn_ubf_block_at(file.as_ptr(), file.len(), n, kind, length, start, check, place, count) }
}

pub fn ubf_size(start: u32, length: u32) -> usize {
    unsafe { c::zrn_ubf_size(start, length) }
}

pub fn ubf_image(bytes: &[u8], start: u32, length: u32, place: &mut usize) -> usize {
    unsafe { c::zrn_ubf_image(bytes.as_ptr(), bytes.len(), start, length, place) }
}

pub fn ubf_model(bytes: &[u8], place: &mut usize) -> usize {
    unsafe { c::zrn_ubf_model(bytes.as_ptr(), bytes.len(), place) }
}

pub fn ubf_version(bytes: &[u8], place: &mut usize) -> usize {
    unsafe { c::zrn_ubf_version(bytes.as_ptr(), bytes.len(), place) }
}

pub fn ubf_file_name(bytes: &[u8], place: &mut usize) -> usize {
    unsafe { c::zrn_ubf_file_name(bytes.as_ptr(), bytes.len(), place) }
}

pub fn ubf_date(bytes: &[u8], place: &mut usize) -> usize {
    unsafe { c::zrn_ubf_date(bytes.as_ptr(), bytes.len(), place) }
}

#[allow(clippy::too_many_arguments)]
pub fn ubf_write(
    kind: u16,
    address: u32,
    start: u32,
    model: &[u8],
    version: &[u8],
    name: &[u8],
    date: &[u8],
    image: &[u8],
    out: &mut [u8],
    count: &mut usize,
) -> u8 {
    unsafe {
        c::zrn_ubf_write(
            kind,
            address,
            start,
            model.as_ptr(),
            model.len(),
            version.as_ptr(),
            version.len(),
            name.as_ptr(),
            name.len(),
            date.as_ptr(),
            date.len(),
            image.as_ptr(),
            image.len(),
            out.as_mut_ptr(),
            out.len(),
            count,
        )
    }
}

pub fn module_open(state: &mut [u8], flash: &[u8]) -> u8 {
    unsafe { c::zrn_module_open(state.as_mut_ptr(), state.len(), flash.as_ptr(), flash.len()) }
}

pub fn module_is_open(state: &[u8]) -> u8 {
    unsafe { c::zrn_module_is_open(state.as_ptr(), state.len()) }
}

pub fn module_frame(
    state: &mut [u8],
    command: u8,
    payload: &[u8],
    flash: &mut [u8],
    reply: &mut [u8],
    count: &mut usize,
) -> u8 {
    unsafe {
        c::zrn_module_frame(
            state.as_mut_ptr(),
            state.len(),
            command,
            payload.as_ptr(),
            payload.len(),
            flash.as_mut_ptr(),
            flash.len(),
            reply.as_mut_ptr(),
            reply.len(),
            count,
        )
    }
}

pub fn module_wait(state: &mut [u8], ms: u32, flash: &mut [u8], reply: &mut [u8], count: &mut usize) -> u8 {
    unsafe {
        c::zrn_module_wait(
            state.as_mut_ptr(),
            state.len(),
            ms,
            flash.as_mut_ptr(),
            flash.len(),
            reply.as_mut_ptr(),
            reply.len(),
            count,
        )
    }
}

#[allow(clippy::too_many_arguments)]
pub fn host_open(
    state: &mut [u8],
    kind: u16,
    image: &[u8],
    first: u8,
    wish: usize,
    start: u8,
    same: u8,
    out: &mut [u8],
    count: &mut usize,
) -> u8 {
    unsafe {
        c::zrn_host_open(
            state.as_mut_ptr(),
            state.len(),
            kind,
            image.as_ptr(),
            image.len(),
            first,
            wish,
            start,
            same,
            out.as_mut_ptr(),
            out.len(),
            count,
        )
    }
}

pub fn host_frame(
    state: &mut [u8],
    command: u8,
    payload: &[u8],
    image: &[u8],
    out: &mut [u8],
    count: &mut usize,
    passed: &mut u8,
) -> u8 {
    unsafe {
        c::zrn_host_frame(
            state.as_mut_ptr(),
            state.len(),
            command,
            payload.as_ptr(),
            payload.len(),
            image.as_ptr(),
            image.len(),
            out.as_mut_ptr(),
            out.len(),
            count,
            passed,
        )
    }
}

pub fn host_line(
    state: &mut [u8],
    line: &[u8],
    image: &[u8],
    out: &mut [u8],
    count: &mut usize,
    passed: &mut u8,
) -> u8 {
    unsafe {
        c::zrn_host_line(
            state.as_mut_ptr(),
            state.len(),
            line.as_ptr(),
            line.len(),
            image.as_ptr(),
            image.len(),
            out.as_mut_ptr(),
            out.len(),
            count,
            passed,
        )
    }
}

pub fn host_wait(state: &mut [u8], ms: u32, image: &[u8], out: &mut [u8], count: &mut usize, passed: &mut u8) -> u8 {
    unsafe {
        c::zrn_host_wait(
            state.as_mut_ptr(),
            state.len(),
            ms,
            image.as_ptr(),
            image.len(),
            out.as_mut_ptr(),
            out.len(),
            count,
            passed,
        )
    }
}

pub fn host_progress(state: &[u8], total: &mut usize) -> usize {
    unsafe { c::zrn_host_progress(state.as_ptr(), state.len(), total) }
}

pub fn host_line_rate(state: &[u8]) -> u8 {
    unsafe { c::zrn_host_line_rate(state.as_ptr(), state.len()) }
}

pub fn host_can_arise(state: &[u8]) -> u8 {
    unsafe { c::zrn_host_can_arise(state.as_ptr(), state.len()) }
}

pub fn host_resent(state: &[u8]) -> u32 {
    unsafe { c::zrn_host_resent(state.as_ptr(), state.len()) }
}

pub fn restart_write(out: &mut [u8], count: &mut usize) -> u8 {
    unsafe { c::zrn_restart_write(out.as_mut_ptr(), out.len(), count) }
}

#[allow(clippy::too_many_arguments)]
pub fn caller_open(
    state: &mut [u8],
    kind: u16,
    image: &[u8],
    first: u8,
    wish: usize,
    start: u8,
    same: u8,
    out: &mut [u8],
    count: &mut usize,
) -> u8 {
    unsafe {
        c::zrn_caller_open(
            state.as_mut_ptr(),
            state.len(),
            kind,
            image.as_ptr(),
            image.len(),
            first,
            wish,
            start,
            same,
            out.as_mut_ptr(),
            out.len(),
            count,
        )
    }
}

pub fn caller_hear(state: &mut [u8], byte: u8, image: &[u8], out: &mut [u8], count: &mut usize, passed: &mut u8) -> u8 {
    unsafe {
        c::zrn_caller_hear(
            state.as_mut_ptr(),
            state.len(),
            byte,
            image.as_ptr(),
            image.len(),
            out.as_mut_ptr(),
            out.len(),
            count,
            passed,
        )
    }
}

pub fn caller_wait(state: &mut [u8], ms: u32, image: &[u8], out: &mut [u8], count: &mut usize, passed: &mut u8) -> u8 {
    unsafe {
        c::zrn_caller_wait(
            state.as_mut_ptr(),
            state.len(),
            ms,
            image.as_ptr(),
            image.len(),
            out.as_mut_ptr(),
            out.len(),
            count,
            passed,
        )
    }
}

pub fn caller_view(
    state: &[u8],
    rate: &mut u8,
    accepted: &mut usize,
    total: &mut usize,
    resent: &mut usize,
    dropped: &mut usize,
) -> u8 {
    unsafe { c::zrn_caller_view(state.as_ptr(), state.len(), rate, accepted, total, resent, dropped) }
}

pub fn post_new(state: &mut [u8]) -> u8 {
    unsafe { c::zrn_post_new(state.as_mut_ptr(), state.len()) }
}

pub fn post_open(state: &mut [u8], flash: &[u8]) -> u8 {
    unsafe { c::zrn_post_open(state.as_mut_ptr(), state.len(), flash.as_ptr(), flash.len()) }
}

pub fn post_hear(state: &mut [u8], byte: u8, flash: &mut [u8], reply: &mut [u8], count: &mut usize) -> u8 {
    unsafe {
        c::zrn_post_hear(
            state.as_mut_ptr(),
            state.len(),
            byte,
            flash.as_mut_ptr(),
            flash.len(),
            reply.as_mut_ptr(),
            reply.len(),
            count,
        )
    }
}

pub fn post_wait(state: &mut [u8], ms: u32, flash: &mut [u8], reply: &mut [u8], count: &mut usize) -> u8 {
    unsafe {
        c::zrn_post_wait(
            state.as_mut_ptr(),
            state.len(),
            ms,
            flash.as_mut_ptr(),
            flash.len(),
            reply.as_mut_ptr(),
            reply.len(),
            count,
        )
    }
}

#[allow(clippy::too_many_arguments)]
pub fn post_view(
    state: &[u8],
    kind: &mut u16,
    base: &mut usize,
    length: &mut usize,
    written: &mut usize,
    dropped: &mut usize,
    idle: &mut u8,
) -> u8 {
    unsafe { c::zrn_post_view(state.as_ptr(), state.len(), kind, base, length, written, dropped, idle) }
}

pub fn rate_agreed(reply: &[u8]) -> u8 {
    unsafe { c::zrn_rate_agreed(reply.as_ptr(), reply.len()) }
}

pub fn type_address(kind: u16, address: &mut u32) -> u8 {
    unsafe { c::zrn_type_address(kind, address) }
}

pub fn piece_for(baud: u32) -> usize {
    unsafe { c::zrn_piece_for(baud) }
}
