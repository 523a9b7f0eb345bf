/*
 * What the agent asks of the controller's security chip. chip.c is a stand-in for the bench: replace it by calls of the
 * real chip, which verifies the log's signature with the signature key of the configuration.
 */
#ifndef CHIP_H
#define CHIP_H

#include <stddef.h>
#include <stdint.h>

/* The most bytes that a signature may have. */
#define CHIP_SIGNATURE_LIMIT 256

/* 1 if the signature of a text is right, 0 if it is not or cannot be verified. */
int chip_approves(const uint8_t *text, size_t text_length, const uint8_t *signature, size_t signature_length);

#endif
