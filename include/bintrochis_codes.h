/* The negative response codes that have a name, the names' numbers and, for display, the names. Included by bintrochis.h.
 * Written by scripts/code-table from `named` of rules/specs/Codes. */
#ifndef BINTROCHIS_CODES_H
#define BINTROCHIS_CODES_H

#include <stdint.h>

#ifdef __cplusplus
extern "C" {
#endif

/* The codes, as a controller sends them. */
enum bintrochis_code {
    BINTROCHIS_CODE_GENERAL_REJECT                                 = 0x10,
    BINTROCHIS_CODE_SERVICE_NOT_SUPPORTED                          = 0x11,
    BINTROCHIS_CODE_SUB_FUNCTION_NOT_SUPPORTED                     = 0x12,
    BINTROCHIS_CODE_INCORRECT_MESSAGE_LENGTH_OR_INVALID_FORMAT     = 0x13,
    BINTROCHIS_CODE_RESPONSE_TOO_LONG                              = 0x14,
    BINTROCHIS_CODE_BUSY_REPEAT_REQUEST                            = 0x21,
    BINTROCHIS_CODE_CONDITIONS_NOT_CORRECT                         = 0x22,
    BINTROCHIS_CODE_REQUEST_SEQUENCE_ERROR                         = 0x24,
    BINTROCHIS_CODE_NO_RESPONSE_FROM_SUBNET_COMPONENT              = 0x25,
    BINTROCHIS_CODE_FAILURE_PREVENTS_EXECUTION_OF_REQUESTED_ACTION = 0x26,
    BINTROCHIS_CODE_REQUEST_OUT_OF_RANGE                           = 0x31,
    BINTROCHIS_CODE_SECURITY_ACCESS_DENIED                         = 0x33,
    BINTROCHIS_CODE_INVALID_KEY                                    = 0x35,
    BINTROCHIS_CODE_EXEED_NUMBER_OF_ATTEMPTS                       = 0x36,
    BINTROCHIS_CODE_REQUIRED_TIME_DELAY_NOT_EXPIRED                = 0x37,
    BINTROCHIS_CODE_UPLOAD_DOWNLOAD_NOT_ACCEPTED                   = 0x70,
    BINTROCHIS_CODE_TRANSFER_DATA_SUSPENDED                        = 0x71,
    BINTROCHIS_CODE_GENERAL_PROGRAMMING_FAILURE                    = 0x72,
    BINTROCHIS_CODE_WRONG_BLOCK_SEQUENCE_COUNTER                   = 0x73,
    BINTROCHIS_CODE_REQUEST_CORRECTLY_RECEIVED_RESPONSE_PENDING    = 0x78,
    BINTROCHIS_CODE_SUB_FUNCTION_NOT_SUPPORTED_IN_ACTIVE_SESSION   = 0x7e,
    BINTROCHIS_CODE_SERVICE_NOT_SUPPORTED_IN_ACTIVE_SESSION        = 0x7f
};

/* The numbers of their names; 0 is a code without a name. */
enum bintrochis_name {
    BINTROCHIS_NAME_NONE                                           = 0,
    BINTROCHIS_NAME_GENERAL_REJECT                                 = 1,
    BINTROCHIS_NAME_SERVICE_NOT_SUPPORTED                          = 2,
    BINTROCHIS_NAME_SUB_FUNCTION_NOT_SUPPORTED                     = 3,
    BINTROCHIS_NAME_INCORRECT_MESSAGE_LENGTH_OR_INVALID_FORMAT     = 4,
    BINTROCHIS_NAME_RESPONSE_TOO_LONG                              = 5,
    BINTROCHIS_NAME_BUSY_REPEAT_REQUEST                            = 6,
    BINTROCHIS_NAME_CONDITIONS_NOT_CORRECT                         = 7,
    BINTROCHIS_NAME_REQUEST_SEQUENCE_ERROR                         = 8,
    BINTROCHIS_NAME_NO_RESPONSE_FROM_SUBNET_COMPONENT              = 9,
    BINTROCHIS_NAME_FAILURE_PREVENTS_EXECUTION_OF_REQUESTED_ACTION = 10,
    BINTROCHIS_NAME_REQUEST_OUT_OF_RANGE                           = 11,
    BINTROCHIS_NAME_SECURITY_ACCESS_DENIED                         = 12,
    BINTROCHIS_NAME_INVALID_KEY                                    = 13,
    BINTROCHIS_NAME_EXEED_NUMBER_OF_ATTEMPTS                       = 14,
    BINTROCHIS_NAME_REQUIRED_TIME_DELAY_NOT_EXPIRED                = 15,
    BINTROCHIS_NAME_UPLOAD_DOWNLOAD_NOT_ACCEPTED                   = 16,
    BINTROCHIS_NAME_TRANSFER_DATA_SUSPENDED                        = 17,
    BINTROCHIS_NAME_GENERAL_PROGRAMMING_FAILURE                    = 18,
    BINTROCHIS_NAME_WRONG_BLOCK_SEQUENCE_COUNTER                   = 19,
    BINTROCHIS_NAME_REQUEST_CORRECTLY_RECEIVED_RESPONSE_PENDING    = 20,
    BINTROCHIS_NAME_SUB_FUNCTION_NOT_SUPPORTED_IN_ACTIVE_SESSION   = 21,
    BINTROCHIS_NAME_SERVICE_NOT_SUPPORTED_IN_ACTIVE_SESSION        = 22,
    BINTROCHIS_NAMES                                               = 23 /* how many numbers there are, 0 included */
};

/* The number of a code's name, proved for all 256 codes against the list in `crates/rules/specs/Codes.antt`. */
uint8_t bintrochis_name_number(uint8_t code);

/* The name itself; "" for a code without one. */
static inline const char *bintrochis_code_name(uint8_t code) {
    static const char *const names[BINTROCHIS_NAMES] = {
        "",
        "GeneralReject",
        "ServiceNotSupported",
        "SubFunctionNotSupported",
        "IncorrectMessageLengthOrInvalidFormat",
        "ResponseTooLong",
        "BusyRepeatRequest",
        "ConditionsNotCorrect",
        "RequestSequenceError",
        "NoResponseFromSubnetComponent",
        "FailurePreventsExecutionOfRequestedAction",
        "RequestOutOfRange",
        "SecurityAccessDenied",
        "InvalidKey",
        "ExeedNumberOfAttempts",
        "RequiredTimeDelayNotExpired",
        "UploadDownloadNotAccepted",
        "TransferDataSuspended",
        "GeneralProgrammingFailure",
        "WrongBlockSequenceCounter",
        "RequestCorrectlyReceivedResponsePending",
        "SubFunctionNotSupportedInActiveSession",
        "ServiceNotSupportedInActiveSession"
    };
    return names[bintrochis_name_number(code)];
}

#ifdef __cplusplus
}
#endif

#endif
