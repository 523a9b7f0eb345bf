//! The second program's calls under the C names of the proved library, so that one C caller can be linked with either.
//!
//! Of a caller all of them ask what the C header does: each pointer goes with its length, and no bytes lent for output
//! overlap others.

use second::calls::{self, Arguments};
use second::sha256::sha256;
use std::slice::{from_raw_parts, from_raw_parts_mut};

/// Exports a call: what it is given before and after the inputs that all have, which it gets as `Arguments`.
macro_rules! export {
    ($name:ident, ($($before:ident: $before_type:ty)*), ($($after:ident: $after_type:ty),*), |$arguments:ident| $call:expr) => {
        /// # Safety
        /// See the head of this file.
        #[no_mangle]
        pub unsafe extern "C" fn $name(
            $($before: $before_type,)*
            response: *const u8,
            response_length: usize,
            configuration: *const u8,
            configuration_length: usize,
            state: *const u8,
            state_length: usize,
            identifier: *const u8,
            identifier_length: usize,
            clock: u64,
            vrf_outputs: *const u8,
            vrf_outputs_length: usize,
            $($after: $after_type),*
        ) -> u64 {
            let $arguments = &Arguments {
                response: from_raw_parts(response, response_length),
                settings: from_raw_parts(configuration, configuration_length),
                state: from_raw_parts(state, state_length),
                identifier: from_raw_parts(identifier, identifier_length),
                clock,
                sheet: from_raw_parts(vrf_outputs, vrf_outputs_length),
            };
            $call
        }
    };
}

export!(
    kt_search,
    (),
    (
        signed_text: *const u8, signed_text_length: usize,
        output: *mut u8, output_length: usize,
        new_state: *mut u8, new_state_length: usize
    ),
    |arguments| calls::search(
        arguments,
        from_raw_parts(signed_text, signed_text_length),
        from_raw_parts_mut(output, output_length),
        from_raw_parts_mut(new_state, new_state_length),
    )
);

export!(
    kt_monitor,
    (),
    (
        signed_text: *const u8, signed_text_length: usize,
        new_state: *mut u8, new_state_length: usize
    ),
    |arguments| calls::monitor(
        arguments,
        from_raw_parts(signed_text, signed_text_length),
        from_raw_parts_mut(new_state, new_state_length),
    )
);

export!(
    kt_signed_text,
    (kind: u32),
    (buffer: *mut u8, buffer_length: usize, offset: u64),
    |arguments| calls::signed_text(
        kind,
        arguments,
        from_raw_parts_mut(buffer, buffer_length),
        offset,
    )
);

/// # Safety
/// See the head of this file.
#[no_mangle]
pub unsafe extern "C" fn kt_ladder(version: u32, versions: *mut u8, versions_length: usize) -> u64 {
    calls::ladder(version, from_raw_parts_mut(versions, versions_length))
}

/// # Safety
/// See the head of this file.
#[no_mangle]
pub unsafe extern "C" fn kt_sha256(
    message: *const u8,
    message_length: usize,
    digest: *mut u8,
    digest_length: usize,
) -> u64 {
    if digest_length < 32 {
        return 0;
    }
    let message = from_raw_parts(message, message_length);
    from_raw_parts_mut(digest, 32).copy_from_slice(&sha256(message));
    32
}
