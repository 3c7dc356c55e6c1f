/* loop PORT TURNS: a libmodbus master that reads 16 registers of slave 170 so many times, and prints how many times a second. */
#include <errno.h>
#include <modbus/modbus.h>
#include <stdio.h>
#include <stdlib.h>
#include <time.h>

static double now(void)
{
    struct timespec time;
    clock_gettime(CLOCK_MONOTONIC, &time);
    return (double)time.tv_sec + (double)time.tv_nsec / 1e9;
}

int main(int words, char **word)
{
    uint16_t registers[16];
    if (words != 3)
        return 2;
    modbus_t *line = modbus_new_rtu(word[1], 9600, 'N', 8, 1);
    const int turns = atoi(word[2]);
    if (line == NULL || modbus_set_slave(line, 170) != 0 || modbus_connect(line) != 0) {
        fprintf(stderr, "loop: %s: %s\n", word[1], modbus_strerror(errno));
        return 1;
    }
    const double start = now();
    for (int turn = 0; turn < turns; turn++)
        if (modbus_read_registers(line, 0, 16, registers) != 16) {
            fprintf(stderr, "loop: turn %d: %s\n", turn, modbus_strerror(errno));
            return 1;
        }
    printf("%.0f\n", turns / (now() - start));
    modbus_close(line);
    modbus_free(line);
    return 0;
}
