package main

import "fmt"

type message struct {
	items []int
	left  int
}

func main() {
	left, right, done := make(chan message, 1), make(chan message, 1), make(chan int)
	go func() {
		for m := range left {
			if m.left == 0 {
				done <- len(m.items)
				return
			}
			m.left--
			right <- m
		}
	}()
	go func() {
		for m := range right {
			left <- m
		}
	}()
	items := make([]int, 1000)
	for i := range items {
		items[i] = i
	}
	left <- message{items, NUMBER}
	fmt.Println(<-done)
}
