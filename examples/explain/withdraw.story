2:5 var balance: int;  // balance = 0
16:7 var wanted: int;  // wanted = 0
16:15 var paid: int;  // paid = 0
18:3 balance := 100;  // balance = 100
19:3 havoc wanted;  // wanted = 101
20:3 assume 0 <= wanted;  // wanted = 101
21:3 call paid := withdraw(wanted);  // requires 0 <= amount, wanted = 101
21:3 call paid := withdraw(wanted);  // amount = 101
4:42   procedure withdraw(amount: int) returns (paid: int)  // paid = 0
9:3   paid := amount;  // paid = 101
10:3   if (balance < 0) {  // balance = 100, else
11:3   balance := balance - paid;  // balance = -1
7:3   ensures balance == old(balance) - paid;  // balance = -1, old(balance) = 100, paid = 101
4:1   }  // paid = 101
22:3 assert 0 <= balance;  // balance = -1
assertion 3 line 22 fails
