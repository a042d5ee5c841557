let turned = "\u{202e}";
let list = [1, 'a'];
