/*
 * A host as it was built with the header before request W-208: a record of 46 bytes, and function names without the number of
 * a layout. It must not link with archives whose record is another.
 */
#include <stdint.h>
#include <stddef.h>

typedef struct {
    uint8_t position;
    uint16_t params[12];
    uint8_t commands[8];
    uint16_t age;
    uint8_t run[2];
    uint16_t since;
    uint8_t last[3];
    uint16_t wait;
} damper_drive;

damper_drive damper_fresh(void);
uint8_t damper_hall_tick(damper_drive *row, size_t drives, uint32_t quota, uint32_t *numbers, size_t places);

int main(void)
{
    damper_drive row[2] = {damper_fresh(), damper_fresh()};
    uint32_t numbers[2];
    return damper_hall_tick(row, 2, 1, numbers, 2);
}
