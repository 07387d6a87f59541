// The polynomial lines of codes.txt, by klauspost/reedsolomon: its default matrix and its encoder.
package main

import (
	"encoding/hex"
	"fmt"
	"os"

	"github.com/klauspost/reedsolomon"
)

func encodeLine(k, s int, data []byte) {
	coder, err := reedsolomon.New(k, k)
	if err != nil {
		fmt.Fprintln(os.Stderr, err)
		os.Exit(1)
	}
	word := make([]byte, 2*k*s)
	copy(word, data)
	shards := make([][]byte, 2*k)
	for i := range shards {
		shards[i] = word[i*s : (i+1)*s]
	}
	if err := coder.Encode(shards); err != nil {
		fmt.Fprintln(os.Stderr, err)
		os.Exit(1)
	}
	fmt.Printf("encode 1 %d %d %s %s\n", k, s, hex.EncodeToString(data), hex.EncodeToString(word))
}

func main() {
	for k := 1; k <= 32; k *= 2 {
		sizes := []int{3}
		if k == 2 {
			sizes = []int{3, 64}
		}
		for _, s := range sizes {
			data := make([]byte, k*s)
			x := uint64(1000*k + s)
			for i := range data {
				x = (1103515245*x + 12345) % 2147483648
				data[i] = byte(x >> 16)
			}
			encodeLine(k, s, data)
		}
		unit := make([]byte, k*k)
		for j := 0; j < k; j++ {
			unit[j*k+j] = 1
		}
		encodeLine(k, k, unit)
	}
}
