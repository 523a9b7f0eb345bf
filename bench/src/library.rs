//! The calls of the proved library (include/kt.h) on slices, those for responses in the shape of the plain ones.

use second::calls::Arguments;

#[link(name = "kt", kind = "static")]
extern "C" {
    fn kt_sha256(
        message: *const u8,
        message_length: usize,
        digest: *mut u8,
        digest_length: usize,
    ) -> u64;

    fn kt_ladder(version: u32, versions: *mut u8, versions_length: usize) -> u64;

    fn kt_search(
        response: *const u8,
        response_length: usize,
        configuration: *const u8,
        configuration_length: usize,
        state: *const u8,
        state_length: usize,
        identifier: *const u8,
        identifier_length: usize,
        clock: u64,
        vrf_outputs: *const u8,
        vrf_outputs_length: usize,
        signed_text: *const u8,
        signed_text_length: usize,
        output: *mut u8,
        output_length: usize,
        new_state: *mut u8,
        new_state_length: usize,
    ) -> u64;

    fn kt_monitor(
        response: *const u8,
        response_length: usize,
        configuration: *const u8,
        configuration_length: usize,
        state: *const u8,
        state_length: usize,
        identifier: *const u8,
        identifier_length: usize,
        clock: u64,
        vrf_outputs: *const u8,
        vrf_outputs_length: usize,
        signed_text: *const u8,
        signed_text_length: usize,
        new_state: *mut u8,
        new_state_length: usize,
    ) -> u64;

    fn kt_signed_text(
        kind: u32,
        response: *const u8,
        response_length: usize,
        configuration: *const u8,
        configuration_length: usize,
        state: *const u8,
        state_length: usize,
        identifier: *const u8,
        identifier_length: usize,
        clock: u64,
        vrf_outputs: *const u8,
        vrf_outputs_length: usize,
        buffer: *mut u8,
        buffer_length: usize,
        offset: u64,
    ) -> u64;
}

// All calls below are safe: their pointers come from slices and go with the lengths of these slices, and what is
// lent for output is borrowed alone.

/// Calls a function on the inputs that all calls for responses have, with what it takes before and after them.
macro_rules! call {
    ($function:ident, ($($before:expr)?), $arguments:ident, ($($after:expr),*)) => {
        unsafe {
            $function(
                $($before,)?
                $arguments.response.as_ptr(),
                $arguments.response.len(),
                $arguments.settings.as_ptr(),
                $arguments.settings.len(),
                $arguments.state.as_ptr(),
                $arguments.state.len(),
                $arguments.identifier.as_ptr(),
                $arguments.identifier.len(),
                $arguments.clock,
                $arguments.sheet.as_ptr(),
                $arguments.sheet.len(),
                $($after),*
            )
        }
    };
}

pub fn sha256(message: &[u8], digest: &mut [u8]) -> u64 {
    let (bytes, room) = (message.as_ptr(), digest.as_mut_ptr());
    unsafe { kt_sha256(bytes, message.len(), room, digest.len()) }
}

pub fn ladder(version: u32, versions: &mut [u8]) -> u64 {
    unsafe { kt_ladder(version, versions.as_mut_ptr(), versions.len()) }
}

pub fn search(
    arguments: &Arguments,
    signed: &[u8],
    output: &mut [u8],
    new_state: &mut [u8],
) -> u64 {
    call!(
        kt_search,
        (),
        arguments,
        (
            signed.as_ptr(),
            signed.len(),
            output.as_mut_ptr(),
            output.len(),
            new_state.as_mut_ptr(),
            new_state.len()
        )
    )
}

pub fn monitor(arguments: &Arguments, signed: &[u8], new_state: &mut [u8]) -> u64 {
    call!(
        kt_monitor,
        (),
        arguments,
        (
            signed.as_ptr(),
            signed.len(),
            new_state.as_mut_ptr(),
            new_state.len()
        )
    )
}

pub fn signed_text(kind: u32, arguments: &Arguments, buffer: &mut [u8], offset: u64) -> u64 {
    call!(
        kt_signed_text,
        (kind),
        arguments,
        (buffer.as_mut_ptr(), buffer.len(), offset)
    )
}
