//! The negative response codes that have a name, under the Rust's names. Written by scripts/code-table from `named` of rules/specs/Codes.

use super::NegativeResponseCode;

#[allow(non_upper_case_globals)]
impl NegativeResponseCode {
    pub const GeneralReject: Self = Self(0x10);
    pub const ServiceNotSupported: Self = Self(0x11);
    pub const SubFunctionNotSupported: Self = Self(0x12);
    pub const IncorrectMessageLengthOrInvalidFormat: Self = Self(0x13);
    pub const ResponseTooLong: Self = Self(0x14);
    pub const BusyRepeatRequest: Self = Self(0x21);
    pub const ConditionsNotCorrect: Self = Self(0x22);
    pub const RequestSequenceError: Self = Self(0x24);
    pub const NoResponseFromSubnetComponent: Self = Self(0x25);
    pub const FailurePreventsExecutionOfRequestedAction: Self = Self(0x26);
    pub const RequestOutOfRange: Self = Self(0x31);
    pub const SecurityAccessDenied: Self = Self(0x33);
    pub const InvalidKey: Self = Self(0x35);
    pub const ExeedNumberOfAttempts: Self = Self(0x36);
    pub const RequiredTimeDelayNotExpired: Self = Self(0x37);
    pub const UploadDownloadNotAccepted: Self = Self(0x70);
    pub const TransferDataSuspended: Self = Self(0x71);
    pub const GeneralProgrammingFailure: Self = Self(0x72);
    pub const WrongBlockSequenceCounter: Self = Self(0x73);
    pub const RequestCorrectlyReceivedResponsePending: Self = Self(0x78);
    pub const SubFunctionNotSupportedInActiveSession: Self = Self(0x7e);
    pub const ServiceNotSupportedInActiveSession: Self = Self(0x7f);
}

/// The names by their numbers; number 0 has none.
pub const NAMES: [&str; 23] = [
    "",
    "GeneralReject",
    "ServiceNotSupported",
    "SubFunctionNotSupported",
    "IncorrectMessageLengthOrInvalidFormat",
    "ResponseTooLong",
    "BusyRepeatRequest",
    "ConditionsNotCorrect",
    "RequestSequenceError",
    "NoResponseFromSubnetComponent",
    "FailurePreventsExecutionOfRequestedAction",
    "RequestOutOfRange",
    "SecurityAccessDenied",
    "InvalidKey",
    "ExeedNumberOfAttempts",
    "RequiredTimeDelayNotExpired",
    "UploadDownloadNotAccepted",
    "TransferDataSuspended",
    "GeneralProgrammingFailure",
    "WrongBlockSequenceCounter",
    "RequestCorrectlyReceivedResponsePending",
    "SubFunctionNotSupportedInActiveSession",
    "ServiceNotSupportedInActiveSession",
];
