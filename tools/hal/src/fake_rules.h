/* The rules of the header that bind a device, by name: which of them the small camera HAL is told to break. */
#ifndef FAKE_RULES_H
#define FAKE_RULES_H

#define FAKE_RULES(rule)                                                                                               \
    rule(ACCEPTED_BEFORE_INIT, "accepted-before-init") rule(ACCEPTED_INIT_TWICE, "accepted-init-twice") rule(          \
        ACCEPTED_DEAD, "accepted-dead") rule(ACCEPTED_NO_OUTPUT, "accepted-no-output")                                 \
        rule(ACCEPTED_TWO_INPUTS, "accepted-two-inputs") rule(ACCEPTED_NO_SETTINGS, "accepted-no-settings") rule(      \
            ACCEPTED_UNKNOWN_STREAM,                                                                                   \
            "accepted-unknown-stream") rule(NO_MAX_BUFFERS, "no-max-buffers") rule(REFUSED_REQUEST, "refused-request") \
            rule(REFUSED_AFTER_CALLBACK, "refused-after-callback") rule(UNKNOWN_FRAME, "unknown-frame") rule(          \
                CALLBACK_AFTER_CLOSE, "callback-after-close") rule(CALLBACK_AFTER_FAILURE, "callback-after-failure")   \
                rule(FAILED_WITH_FRAMES, "failed-with-frames") rule(SHUTTER_TWICE, "shutter-twice") rule(              \
                    SHUTTER_AFTER_REQUEST_ERROR, "shutter-after-request-error") rule(EMPTY_RESULT, "empty-result")     \
                    rule(PARTIAL_NUMBER, "partial-number") rule(PARTIAL_TWICE, "partial-twice")                        \
                        rule(METADATA_AFTER_REQUEST_ERROR, "metadata-after-request-error") rule(METADATA_ORDER,        \
                                                                                                "metadata-order")      \
                            rule(NOT_AT_DEVICE, "not-at-device") rule(BUFFER_STATUS, "buffer-status")                  \
                                rule(BUFFER_ORDER, "buffer-order") rule(FAILED_BUFFER_ORDER, "failed-buffer-order")    \
                                    rule(GOOD_AFTER_ERROR, "good-after-error") rule(ACQUIRE_FENCE, "acquire-fence")    \
                                        rule(RELEASE_FENCE, "release-fence") rule(ERROR_TWICE, "error-twice")          \
                                            rule(ERROR_BESIDE_REQUEST_ERROR, "error-beside-request-error")             \
                                                rule(REQUEST_ERROR_LATE, "request-error-late")                         \
                                                    rule(ERROR_FOR_GOOD_BUFFER, "error-for-good-buffer")               \
                                                        rule(ERROR_UNKNOWN_STREAM, "error-unknown-stream") rule(       \
                                                            FLUSH_LEFT, "flush-left") rule(CLOSE_LEFT, "close-left")   \
                                                            rule(FAILED_WITHOUT_NOTICE, "failed-without-notice")       \
                                                                rule(NO_SHUTTER, "no-shutter")

#define FAKE_RULE_NUMBER(number, name) FAKE_##number,

enum fake_rule { FAKE_NONE, FAKE_RULES(FAKE_RULE_NUMBER) FAKE_RULE_COUNT };

#undef FAKE_RULE_NUMBER

/* The rule of the name; FAKE_NONE where it is empty or NULL, FAKE_RULE_COUNT where no rule has it. */
enum fake_rule fake_rule_named(const char *name);

#endif
