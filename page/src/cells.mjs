// The cells of a picture.

export const ROWS = 36, COLUMNS = 60, CELLS = ROWS * COLUMNS;
