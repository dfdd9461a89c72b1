// Two goroutines send one message to and fro.
package main

import "fmt"

type hit struct{ left int }

func main() {
	toPing, toPong, done := make(chan hit, 16), make(chan hit, 16), make(chan bool)
	go func() {
		for m := range toPing {
			if m.left == 0 {
				fmt.Println("done")
				done <- true
				return
			}
			toPong <- hit{m.left - 1}
		}
	}()
	go func() {
		for m := range toPong {
			toPing <- m
		}
	}()
	toPing <- hit{NUMBER}
	<-done
}
