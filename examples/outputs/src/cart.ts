interface Item { name: string; price: number }

function total(items: Item[]): number {
	let sum = 0;
	for (const item of items) sum += item.prize; // Straße
	return "ünïcode" + sum;
}

total([{ name: "日本", price: "3" }]);
