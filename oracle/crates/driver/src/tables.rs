//! What the published files fix in makers and constants and no call shows: printed so that ours can be laid
//! beside it.

use ace_core::clock::Duration;
use ace_server::config::{DidConfig, ServiceConfig, SessionConfig, periodic};
use ace_server::nrc::{BuiltinNrc, NrcError};
use form::print::hex;

fn session(name: &str, s: &SessionConfig) {
    let (p2, star, s3) = (s.p2_timeout, s.p2_extended_timeout, s.s3_timeout);
    let spans = [p2, star, s3].map(|d| d.as_millis().to_string());
    println!("{name} session {} {}", s.session_type, spans.join(" "));
}

fn service(name: &str, s: &ServiceConfig) {
    let sessions = hex(s.supported_in);
    println!(
        "{name} service {} {} {sessions}",
        s.service_id, s.security_level
    );
}

fn identifier(name: &str, d: &DidConfig) {
    let (read, write) = (hex(d.readable_in), hex(d.writable_in));
    let (periodic, minimum) = (u8::from(d.periodic), d.min_periodic_interval.as_millis());
    let head = format!("{name} identifier {} {}", d.identifier, d.security_level);
    println!("{head} {periodic} {minimum} {read} {write}");
}

macro_rules! codes {
    ($($name:ident)*) => {
        $(println!(concat!(stringify!($name), " {}"), u8::from(BuiltinNrc::$name()));)*
    };
}

pub fn print() {
    session("default_session", &SessionConfig::default_session());
    session("programming_session", &SessionConfig::programming_session());
    session("extended_session", &SessionConfig::extended_session());
    service("new", &ServiceConfig::new(0x22, &[1, 3]));
    service("secured", &ServiceConfig::secured(0x22, &[1, 3], 5));
    let read_only = DidConfig::read_only(0xF190, &[1, 3]);
    identifier("read_only", &read_only);
    identifier("read_write", &DidConfig::read_write(0xF190, &[1, 3], &[3]));
    identifier(
        "periodic",
        &read_only.clone().periodic(Duration::from_millis(200)),
    );
    identifier("secured", &read_only.secured(5));
    println!("SLOW {}", periodic::SLOW.as_millis());
    println!("MEDIUM {}", periodic::MEDIUM.as_millis());
    println!("FAST {}", periodic::FAST.as_millis());
    codes!(service_not_supported sub_function_not_supported);
    codes!(incorrect_message_length_or_invalid_format response_too_long busy_repeat_request);
    codes!(conditions_not_correct request_sequence_error request_out_of_range);
    codes!(security_access_denied invalid_key exceeded_number_of_attempts);
    codes!(required_time_delay_not_expired upload_download_not_accepted transfer_data_suspended);
    codes!(general_programming_failure wrong_block_sequence_counter response_pending);
    codes!(sub_function_not_supported_in_active_session service_not_supported_in_active_session);
}
