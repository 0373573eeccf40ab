// What to begin with: a title, what it is, what is pasted for it, and the name of a file.

const RECORD = [
  'a3646e616d656c477261636520486f707065726a70726f66657373696f6e72636f6d70757465722073636965',
  '6e746973746d796561725f6f665f6269727468190772',
].join('');

const REFUSED = 'a2646e616d6566486f70706572657965617273821907721817';

// Five sections; one letter of the third was changed.
const DAMAGED = [
  'OqJlcm9vdHOB2CpYJQABcRIgUcqOyQi+XMsBERYshZ2MGqw0F8xYjavkdNN5eKyye8lndmVyc2lvbgHqAQFxEiBR',
  'yo7JCL5cywERFiyFnYwarDQXzFiNq+R003l4rLJ7yaRkbmFtZWVBIGRheWR5ZWFyGQe1ZWNvdmVy2CpYJQABVRIg',
  'yDHJeA8BDXvJq0jMe4tMZ90dehZnrEDzmM5rW7LnXcJmdHJhY2tzg9gqWCUAAXESIJY+tS1TjxQ0330JGrnYxYMU',
  'CDyf8XzZtoOB4ikDO2ZN2CpYJQABcRIgMvtEfhQSOj7VdxYxTZw3Q5wxeE+w8ZOIYwTtmRlo79/YKlglAAFxEiBx',
  'NIRmzK6+HCl2ECVytsUL0PyxYHeY8Tp/051Q8amTIToBcRIglj61LVOPFDTffQkaudjFgxQIPJ/xfNm2g4HiKQM7',
  'Zk2iZXRpdGxlZERhd25nc2Vjb25kcxi7OgFxEiAy+0R+FBI6PtV3FjFNnDdDnDF4T7Dxk4hjBO2ZGWjv36JldGl0',
  'bGVkTm9vb2dzZWNvbmRzGMw6AXESIHE0hGbMrr4cKXYQJXK2xQvQ/LFgd5jxOn/TnVDxqZMhomV0aXRsZWREdXNr',
  'Z3NlY29uZHMY5y0BVRIgyDHJeA8BDXvJq0jMe4tMZ90dehZnrEDzmM5rW7LnXcKJUE5HLCBzYXk=',
].join('');

export const EXAMPLES = [
  ['A record', 'two texts and a year, in a map', RECORD, 'record'],
  ['A refused block', 'the number 23 in two bytes, where one is enough', REFUSED, 'refused block'],
  ['A file with a damaged section', 'an album in a CAR: one letter was changed', DAMAGED, 'album.car'],
];
