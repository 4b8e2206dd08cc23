/** Prints what an act is refused by, which records something, on Node. */
export function show(act) {
  try {
    act();
    console.log('nothing');
  } catch (error) {
    console.log(error.code ?? error.message);
  }
}
