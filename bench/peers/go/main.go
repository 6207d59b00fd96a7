// The exchanges of the harness over Go's unbuffered channels, on one core: a ping-pong of two, and a line of 200.
package main

import (
	"fmt"
	"runtime"
	"time"
)

// Passes a number to and fro; two exchanges a round.
func pingPong(rounds int) time.Duration {
	there, back, done := make(chan uint32), make(chan uint32), make(chan bool)
	go func() {
		for i := 0; i < rounds; i++ {
			x := <-there
			back <- x + 1
		}
		done <- true
	}()
	began := time.Now()
	x := uint32(0)
	for i := 0; i < rounds; i++ {
		there <- x
		x = <-back
	}
	<-done
	return time.Since(began)
}

// Numbers go down a line of processes, each of which hands on what it takes.
func line(long, numbers int) time.Duration {
	first := make(chan uint32)
	in := first
	for i := 0; i < long-2; i++ {
		out := make(chan uint32)
		go func(in, out chan uint32) {
			for i := 0; i < numbers; i++ {
				out <- <-in
			}
		}(in, out)
		in = out
	}
	began := time.Now()
	go func() {
		for i := 0; i < numbers; i++ {
			first <- uint32(i)
		}
	}()
	for i := 0; i < numbers; i++ {
		<-in
	}
	return time.Since(began)
}

func best(times int, run func() time.Duration) time.Duration {
	least := run()
	for i := 1; i < times; i++ {
		if d := run(); d < least {
			least = d
		}
	}
	return least
}

func main() {
	runtime.GOMAXPROCS(1)
	const rounds, numbers, long = 500000, 5000, 200
	p := best(5, func() time.Duration { return pingPong(rounds) })
	fmt.Printf("Go, ping-pong: %.1f million exchanges a second\n", 2*rounds/p.Seconds()/1e6)
	l := best(5, func() time.Duration { return line(long, numbers) })
	fmt.Printf("Go, a line of %d: %.1f million exchanges a second\n", long, (long-1)*numbers/l.Seconds()/1e6)
}
