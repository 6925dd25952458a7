// An endless service of twenty operations, each of which keeps the account.
// By verify: safe, within 100 rounds.
var account: int;
var given: int;

procedure main()
  modifies account, given;
{
  var operation: int;

  account := 0;
  given := 0;
  while (*) {
    havoc operation;
    if (operation == 1) {
      account := account + 1;
      given := given + 1;
    } else if (operation == 2) {
      account := account + 2;
      given := given + 2;
    } else if (operation == 3) {
      account := account + 3;
      given := given + 3;
    } else if (operation == 4) {
      account := account + 4;
      given := given + 4;
    } else if (operation == 5) {
      account := account + 5;
      given := given + 5;
    } else if (operation == 6) {
      account := account + 6;
      given := given + 6;
    } else if (operation == 7) {
      account := account + 7;
      given := given + 7;
    } else if (operation == 8) {
      account := account + 8;
      given := given + 8;
    } else if (operation == 9) {
      account := account + 9;
      given := given + 9;
    } else if (operation == 10) {
      account := account + 10;
      given := given + 10;
    } else if (operation == 11) {
      account := account + 11;
      given := given + 11;
    } else if (operation == 12) {
      account := account + 12;
      given := given + 12;
    } else if (operation == 13) {
      account := account + 13;
      given := given + 13;
    } else if (operation == 14) {
      account := account + 14;
      given := given + 14;
    } else if (operation == 15) {
      account := account + 15;
      given := given + 15;
    } else if (operation == 16) {
      account := account + 16;
      given := given + 16;
    } else if (operation == 17) {
      account := account + 17;
      given := given + 17;
    } else if (operation == 18) {
      account := account + 18;
      given := given + 18;
    } else if (operation == 19) {
      account := account + 19;
      given := given + 19;
    } else if (operation == 20) {
      account := account + 20;
      given := given + 20;
    }
    assert account == given;
  }
}
