// Eight goroutines send to one.
package main

import "fmt"

func main() {
	toSum, done := make(chan int, 1024), make(chan bool)
	go func() {
		sum := 0
		for missing := 8 * NUMBER; missing > 0; missing-- {
			sum += <-toSum
		}
		fmt.Println(sum)
		done <- true
	}()
	for k := 0; k < 8; k++ {
		go func() {
			for n := 0; n < NUMBER; n++ {
				toSum <- n
			}
		}()
	}
	<-done
}
