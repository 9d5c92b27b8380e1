/* A device that calls images. It is freestanding: there is no C library, and of a system only the calls write and exit. The
 * images lie at multiples of 16 (see images.s) and are called where they lie; nothing is loaded, and nothing is copied.
 *
 * An image keeps to the standard calling convention of RV32 (ilp32) where that speaks of integers and pointers: arguments are
 * in a0 and on, results in a0 and a1, ra is where it returns to, sp is a multiple of 16, and s0 to s11 are as they were. So a
 * C compiler's ordinary call of a function pointer calls it.
 *
 * Each call is printed as a line: the model's name and the arguments, as `rup eval` takes them, ` = `, and the result, as
 * `rup eval` prints it. */
#include <stdint.h>

extern const uint8_t sum_image[];
extern const uint8_t fnv1a_image[];
extern const uint8_t upcase_image[];

/* ----- Calls of images: for each a C function whose parameters are the model's. */

/* a number of four bytes of an image's header, little endian */
static uint32_t field(const uint8_t *image, uint32_t offset) {
  const uint8_t *at = image + offset;
  return at[0] | (uint32_t)at[1] << 8 | (uint32_t)at[2] << 16 | (uint32_t)at[3] << 24;
}

/* the address at which an image is entered: its first byte's plus the number at offset 24 */
static uintptr_t entry(const uint8_t *image) { return (uintptr_t)image + field(image, 24); }

/* (params (x word) (y word)): a word is a register; (ret z): one scalar, in a0 */
static uint32_t sum(uint32_t x, uint32_t y) {
  uint32_t (*call)(uint32_t, uint32_t) = (uint32_t(*)(uint32_t, uint32_t))entry(sum_image);
  return call(x, y);
}

/* (params (s (bytes n))): an array with a named length is a pointer and behind it the number of elements; (ret h) */
static uint32_t fnv1a(const uint8_t *bytes, uint32_t length) {
  uint32_t (*call)(const uint8_t *, uint32_t) = (uint32_t(*)(const uint8_t *, uint32_t))entry(fnv1a_image);
  return call(bytes, length);
}

/* (params (s (bytes n))), (ret (s in s)): no scalar comes back, and the array is changed where it stands */
static void upcase(uint8_t *bytes, uint32_t length) {
  void (*call)(uint8_t *, uint32_t) = (void (*)(uint8_t *, uint32_t))entry(upcase_image);
  call(bytes, length);
}

/* ----- The system: the calls 64 (write, here to standard output) and 93 (exit) of Linux on RISC-V. */

static void write_text(const char *text, uint32_t length) {
  register uint32_t a0 __asm__("a0") = 1;
  register const char *a1 __asm__("a1") = text;
  register uint32_t a2 __asm__("a2") = length;
  register uint32_t a7 __asm__("a7") = 64;
  __asm__ volatile("ecall" : "+r"(a0) : "r"(a1), "r"(a2), "r"(a7) : "memory");
}

static void leave(uint32_t status) {
  register uint32_t a0 __asm__("a0") = status;
  register uint32_t a7 __asm__("a7") = 93;
  __asm__ volatile("ecall" : : "r"(a0), "r"(a7));
  for (;;) {
  }
}

/* ----- Printing. */

static void print(const char *text) {
  uint32_t length = 0;
  while (text[length] != 0) {
    length++;
  }
  write_text(text, length);
}

static void print_byte(uint8_t byte) {
  const char *digits = "0123456789abcdef";
  char two[2] = {digits[byte / 16], digits[byte % 16]};
  write_text(two, 2);
}

static void print_word(uint32_t word) {
  for (int shift = 24; shift >= 0; shift -= 8) {
    print_byte((uint8_t)(word >> shift));
  }
}

static void print_bytes(const uint8_t *bytes, uint32_t length) {
  for (uint32_t i = 0; i < length; i++) {
    print_byte(bytes[i]);
  }
}

/* ----- The calls, each printed as a line. */

static void try_sum(uint32_t x, uint32_t y) {
  print("sum 0x");
  print_word(x);
  print(" 0x");
  print_word(y);
  print(" = ");
  print_word(sum(x, y));
  print("\n");
}

static void try_fnv1a(const uint8_t *bytes, uint32_t length) {
  print("fnv1a hex:");
  print_bytes(bytes, length);
  print(" = ");
  print_word(fnv1a(bytes, length));
  print("\n");
}

static void try_upcase(uint8_t *bytes, uint32_t length) {
  print("upcase hex:");
  print_bytes(bytes, length);
  upcase(bytes, length);
  print(" = ");
  print_bytes(bytes, length);
  print("\n");
}

/* "chongo was here!", a message of the vectors of FNV-1a's authors */
static const uint8_t message[] = {0x63, 0x68, 0x6f, 0x6e, 0x67, 0x6f, 0x20, 0x77,
                                  0x61, 0x73, 0x20, 0x68, 0x65, 0x72, 0x65, 0x21};

/* "Hello, World!", and the bytes beside the letters */
static uint8_t text[] = {0x48, 0x65, 0x6c, 0x6c, 0x6f, 0x2c, 0x20, 0x57, 0x6f,
                         0x72, 0x6c, 0x64, 0x21, 0x60, 0x61, 0x7a, 0x7b, 0xff};

void run(void) {
  try_sum(40, 2);
  try_sum(4294967295u, 1);
  for (uint32_t length = 0; length <= sizeof message; length++) {
    try_fnv1a(message, length);
  }
  try_upcase(text, 0);
  try_upcase(text + 1, 4);
  try_upcase(text, sizeof text);
  leave(0);
}
