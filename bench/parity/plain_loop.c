/* P and Q of one row by a plain loop; built twice, as NAME, for two instruction sets. */
#include <stdint.h>
#include <string.h>

enum { SECTOR = 512 };

/* The data stand behind Q, so role k + 1 of Q = 0 has the exponent k; P is the last role. */
void NAME(uint8_t *restrict all, int disks)
{
    uint8_t p[SECTOR] = {0}, q[SECTOR] = {0};
    for (int k = disks - 2; k >= 1; k--) {
        const uint8_t *data = all + k * SECTOR;
        for (int i = 0; i < SECTOR; i++) {
            p[i] ^= data[i];
            q[i] = (uint8_t)((q[i] << 1) ^ ((q[i] >> 7) * 0x1d) ^ data[i]);
        }
    }
    memcpy(all + (disks - 1) * SECTOR, p, SECTOR);
    memcpy(all, q, SECTOR);
}
