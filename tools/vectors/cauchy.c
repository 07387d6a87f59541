/* The Cauchy lines of codes.txt, by ISA-L: its first Cauchy matrix and its encoder. */
#include <isa-l/erasure_code.h>
#include <stdio.h>
#include <string.h>

static void print_hex(const unsigned char *bytes, int n) {
    for (int i = 0; i < n; i++)
        printf("%02x", bytes[i]);
}

static void encode_line(int k, int s, unsigned char *data) {
    static unsigned char matrix[64 * 32], tables[32 * 32 * 32], parity[32 * 64];
    unsigned char *in[32], *out[32];
    for (int i = 0; i < k; i++) {
        in[i] = data + i * s;
        out[i] = parity + i * s;
    }
    gf_gen_cauchy1_matrix(matrix, 2 * k, k);
    ec_init_tables(k, k, matrix + k * k, tables);
    ec_encode_data(s, k, k, tables, in, out);
    printf("encode 2 %d %d ", k, s);
    print_hex(data, k * s);
    printf(" ");
    print_hex(data, k * s);
    print_hex(parity, k * s);
    printf("\n");
}

int main(void) {
    static unsigned char data[32 * 64];
    for (int k = 1; k <= 32; k *= 2) {
        for (int s = 3; s <= (k == 2 ? 64 : 3); s += 61) {
            unsigned int x = 1000u * k + s;
            for (int i = 0; i < k * s; i++) {
                x = (1103515245u * x + 12345u) % 2147483648u;
                data[i] = x >> 16 & 255;
            }
            encode_line(k, s, data);
        }
        memset(data, 0, sizeof data);
        for (int j = 0; j < k; j++)
            data[j * k + j] = 1;
        encode_line(k, k, data);
    }
    return 0;
}
