// Makes a full binary tree and collects, and prints the nanoseconds of an object of two places:
// making, collecting.
//
//	marking DEPTH ROUNDS
package main

import (
	"fmt"
	"os"
	"runtime"
	"runtime/debug"
	"strconv"
	"syscall"
)

type tree struct {
	word   uint64
	places [2]*tree
}

func makeTree(depth int) *tree {
	it := &tree{}
	for i := 0; i < 2 && depth > 0; i++ {
		it.places[i] = makeTree(depth - 1)
	}
	return it
}

func now() float64 {
	var used syscall.Rusage
	syscall.Getrusage(syscall.RUSAGE_SELF, &used)
	return float64(used.Utime.Nano() + used.Stime.Nano())
}

func main() {
	depth, _ := strconv.Atoi(os.Args[1])
	rounds, _ := strconv.Atoi(os.Args[2])
	debug.SetGCPercent(-1)
	objects := float64(int64(2)<<depth - 1)
	began := now()
	root := makeTree(depth)
	made, least := (now()-began)/objects, 1e18
	for i := 0; i < rounds; i++ {
		began = now()
		runtime.GC()
		if took := (now() - began) / objects; took < least {
			least = took
		}
	}
	runtime.KeepAlive(root)
	fmt.Printf("%.1f\t%.1f\n", made, least)
}
