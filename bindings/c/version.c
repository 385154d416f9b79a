/* What the library says of itself. scripts/library compiles this into both libraries, with X3D_VERSION
 * and the folder of status_texts.h, which scripts/status_texts writes. */
#include "x3d.h"

static const char *const texts[UINT8_MAX + 1] = {
#include "status_texts.h"
};

const char *x3d_version(void) { return X3D_VERSION; }

uint32_t x3d_abi(void) { return X3D_ABI; }

const char *x3d_status_text(uint8_t status) {
  return texts[status] ? texts[status] : "unknown status";
}
