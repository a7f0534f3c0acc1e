/* What include/denkumari.h has as inline functions, for callers that load the library: ctypes finds exported functions alone. */
#include "denkumari.h"

#ifdef _WIN32
#define EXPORTED __declspec(dllexport)
#else
#define EXPORTED
#endif

EXPORTED const char *dk_py_version(void);
EXPORTED const char *dk_py_words(uint64_t refusal);
EXPORTED const char *dk_py_reason_words(uint64_t reason);
EXPORTED uint64_t dk_py_record_room(uint64_t image_len, uint64_t blocks);

const char *dk_py_version(void) { return DENKUMARI_VERSION; }

const char *dk_py_words(uint64_t refusal) { return dk_words(refusal); }

const char *dk_py_reason_words(uint64_t reason) { return dk_reason_words(reason); }

uint64_t dk_py_record_room(uint64_t image_len, uint64_t blocks) { return dk_record_room(image_len, blocks); }
