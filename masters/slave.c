/* slave PORT: a libmodbus slave 170 with 400 registers, for as long as it is let. */
#include <errno.h>
#include <modbus/modbus.h>
#include <stdio.h>

int main(int words, char **word)
{
    uint8_t request[MODBUS_RTU_MAX_ADU_LENGTH];
    if (words != 2)
        return 2;
    modbus_t *line = modbus_new_rtu(word[1], 9600, 'N', 8, 1);
    modbus_mapping_t *mapping = modbus_mapping_new(0, 0, 400, 0);
    if (line == NULL || mapping == NULL || modbus_set_slave(line, 170) != 0 || modbus_connect(line) != 0) {
        fprintf(stderr, "slave: %s: %s\n", word[1], modbus_strerror(errno));
        return 1;
    }
    for (;;) {
        const int length = modbus_receive(line, request);
        if (length > 0)
            modbus_reply(line, request, length, mapping);
    }
}
