//! An error type that can be any byte, so that every handed-in error reaches the server as it is.

use ace_server::nrc::NrcError;

#[derive(Debug, Clone, Copy, PartialEq, Eq)]
pub struct Code(pub u8);

impl From<Code> for u8 {
    fn from(code: Code) -> u8 {
        code.0
    }
}

macro_rules! codes {
    ($($name:ident = $byte:literal,)*) => {
        impl NrcError for Code {
            $(fn $name() -> Self {
                Self($byte)
            })*
        }
    };
}

codes! {
    service_not_supported = 0x11,
    sub_function_not_supported = 0x12,
    incorrect_message_length_or_invalid_format = 0x13,
    response_too_long = 0x14,
    busy_repeat_request = 0x21,
    conditions_not_correct = 0x22,
    request_sequence_error = 0x24,
    request_out_of_range = 0x31,
    security_access_denied = 0x33,
    invalid_key = 0x35,
    exceeded_number_of_attempts = 0x36,
    required_time_delay_not_expired = 0x37,
    upload_download_not_accepted = 0x70,
    transfer_data_suspended = 0x71,
    general_programming_failure = 0x72,
    wrong_block_sequence_counter = 0x73,
    response_pending = 0x78,
    sub_function_not_supported_in_active_session = 0x7E,
    service_not_supported_in_active_session = 0x7F,
}

#[cfg(test)]
mod tests {
    use super::*;
    use ace_server::nrc::BuiltinNrc;

    /// The published type says which byte each code is.
    macro_rules! same {
        ($($name:ident)*) => {
            $(assert_eq!(Code::$name().0, u8::from(BuiltinNrc::$name()), stringify!($name));)*
        };
    }

    #[test]
    fn codes_are_the_published_ones() {
        same!(service_not_supported sub_function_not_supported response_too_long);
        same!(incorrect_message_length_or_invalid_format busy_repeat_request);
        same!(conditions_not_correct request_sequence_error request_out_of_range);
        same!(security_access_denied invalid_key exceeded_number_of_attempts);
        same!(required_time_delay_not_expired upload_download_not_accepted);
        same!(transfer_data_suspended general_programming_failure);
        same!(wrong_block_sequence_counter response_pending);
        same!(sub_function_not_supported_in_active_session);
        same!(service_not_supported_in_active_session);
    }
}
