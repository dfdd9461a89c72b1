// Sixteen goroutines that each compute the Fibonacci number of NUMBER, by two calls for each number.
package main

import "fmt"

func fib(n int) int {
	if n < 2 {
		return n
	}
	return fib(n-1) + fib(n-2)
}

func main() {
	box := make(chan int)
	for k := 0; k < 16; k++ {
		go func() { box <- fib(NUMBER) }()
	}
	sum := 0
	for k := 0; k < 16; k++ {
		sum += <-box
	}
	fmt.Println(sum)
}
