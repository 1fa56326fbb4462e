/* The size classes of Cogyrundal, for the C part of the firmware.
 *
 * Class c stands for i from 1 to 8 and k from 4 to 7, with c = 4 * (i - 1) + (k - 4).
 * A block of class c has k * 2^i bytes; a run of class c has k pages of 512 bytes.
 * Input outside these rules is answered by COGYRUNDAL_OUTSIDE.
 */
#ifndef COGYRUNDAL_CLASSES_H
#define COGYRUNDAL_CLASSES_H

#include <stdint.h>

#define COGYRUNDAL_OUTSIDE 65535u

#ifdef __cplusplus
extern "C" {
#endif

/* The smallest class whose blocks hold length bytes, for 1 to 1,792 bytes. */
uint32_t cogyrundal_class_of_length(uint32_t length);

/* The bytes of a block of the class, for classes 0 to 31. */
uint32_t cogyrundal_size_of_class(uint32_t class_number);

/* The pages of a run of the class, for classes 0 to 31. */
uint32_t cogyrundal_pages_of_class(uint32_t class_number);

/* The slot that a place in a run of the class lies in, for places below the run's bytes. */
uint32_t cogyrundal_slot_of_place(uint32_t class_number, uint32_t place);

#ifdef __cplusplus
}
#endif

#endif
