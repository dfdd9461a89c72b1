// A thousand goroutines, each of which counts to STEPS and then sends itself a message, NUMBER times.
package main

import "fmt"

func work(box chan int, done chan bool) {
	for left := range box {
		n := 0
		for n < STEPS {
			n++
			keep(n)
		}
		if left == 0 {
			done <- true
			return
		}
		box <- left - 1
	}
}

//go:noinline
func keep(n int) {}

func main() {
	done := make(chan bool)
	for k := 0; k < 1000; k++ {
		box := make(chan int, 1)
		go work(box, done)
		box <- NUMBER
	}
	for k := 0; k < 1000; k++ {
		<-done
	}
	fmt.Println("done")
}
