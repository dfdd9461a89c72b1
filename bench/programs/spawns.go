// Many goroutines are started, and each sends one message.
package main

import "fmt"

func main() {
	toSum, done := make(chan int, 1024), make(chan bool)
	go func() {
		sum := 0
		for missing := NUMBER; missing > 0; missing-- {
			sum += <-toSum
		}
		fmt.Println(sum)
		done <- true
	}()
	for n := 0; n < NUMBER; n++ {
		own := make(chan int, 1)
		go func() { toSum <- <-own }()
		own <- n
	}
	<-done
}
