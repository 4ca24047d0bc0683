//! The derive stand-in against the published list, byte by byte.

use ace_proto::uds::UdsFrame;
use ace_uds::ext::UdsFrameExt;
use ace_uds::message::ServiceIdentifier;
use ace_uds::message::service::{UdsServiceRequest, UdsServiceResponse};

/// Read off the published list by eye: the requests within 0x10..=0x3E and the responses within 0x50..=0x7E.
/// Its other entries (0x84 to 0x87, 0xC4 to 0xC7) lie outside those patterns and are met by other variants.
const REQUESTS: [u8; 22] = [
    0x10, 0x11, 0x14, 0x19, 0x22, 0x23, 0x24, 0x27, 0x28, 0x29, 0x2A, 0x2C, 0x2E, 0x2F, 0x31, 0x34,
    0x35, 0x36, 0x37, 0x38, 0x3D, 0x3E,
];

fn named(byte: u8) -> Option<ServiceIdentifier> {
    UdsFrame::from_slice(&[byte, 0]).service_identifier()
}

#[test]
fn every_byte_is_the_variant_that_the_list_names() {
    for byte in 0..=255u8 {
        let known = match byte {
            0x10..=0x3E => REQUESTS.contains(&byte),
            0x50..=0x7E => REQUESTS.contains(&(byte - 0x40)),
            _ => true,
        };
        assert_eq!(named(byte).is_some(), known, "{byte:02X}");
        if let Some(sid) = named(byte) {
            assert_eq!(sid.discriminant(), byte);
        }
    }
}

#[test]
fn inner_lists_read_the_same_byte() {
    assert_eq!(
        named(0x3E),
        Some(ServiceIdentifier::UdsServiceRequest(
            UdsServiceRequest::TesterPresent
        ))
    );
    assert_eq!(
        named(0x7E),
        Some(ServiceIdentifier::UdsServiceResponse(
            UdsServiceResponse::TesterPresent
        ))
    );
    assert_eq!(named(0x7F), Some(ServiceIdentifier::NegativeResponse));
    assert_eq!(named(0x85), Some(ServiceIdentifier::ServiceRequests(0x85)));
    assert_eq!(
        named(0xC5),
        Some(ServiceIdentifier::ServiceRequestsPositiveResponse(0xC5))
    );
}

#[test]
fn one_byte_is_too_short_for_a_sub_function() {
    let refused: Vec<u8> = (0..=255u8)
        .filter(|b| named(*b).is_some() && !UdsFrame::from_slice(&[*b]).is_valid())
        .collect();
    let services = [0x10, 0x11, 0x19, 0x27, 0x28, 0x29, 0x31, 0x3E];
    let both: Vec<u8> = services
        .iter()
        .copied()
        .chain(services.iter().map(|b| b + 0x40))
        .collect();
    assert_eq!(refused, both);
}
