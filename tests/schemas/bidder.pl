#!/usr/bin/perl
# A bidder whose client OpenAPI::Client generates from the description that nginx serves at /openapi.json.
#
#     TOKEN=.. MOJO_CA_FILE=cert.pem tests/schemas/bidder.pl https://ADDRESS:8443 SCRIPT
#
# SCRIPT is a file with a bidder's script, as in a replay document (docs/formats.md). A request that does not fit the
# description is not sent. A reply that does not fit it ends the program. The program prints each operation with each
# status that came, and at the end what the bidder has won. It needs Debian's libopenapi-client-perl and
# libio-socket-ssl-perl.
use Mojo::Base -strict, -signatures;
use List::Util  qw(max uniqnum);
use Mojo::File  qw(path);
use Mojo::JSON  qw(decode_json encode_json);
use OpenAPI::Client;
use Time::HiRes qw(sleep);

my ($url, $script) = @ARGV;
die "TOKEN=.. tests/schemas/bidder.pl URL SCRIPT\n" unless $script && $ENV{TOKEN};
$script = decode_json path($script)->slurp;

my $client      = OpenAPI::Client->new("$url/openapi.json", base_url => $url, coerce => '');
my $description = $client->validator;
my %routes      = map { $_->{operation_id} => [@$_{qw(method path)}] } $description->routes->each;
my %came;
$client->ua->on(start => sub ($ua, $tx) { $tx->req->headers->authorization("Bearer $ENV{TOKEN}") });

# Sends an operation until the server is not busy. Returns the reply.
sub ask ($operation, $parameters = {}) {
    while (1) {
        my $tx     = $client->call($operation => $parameters);
        my $reply  = $tx->res;
        my $status = $reply->code // die "$operation: no reply\n";
        die "$operation is not sent: ", $reply->body, "\n" if $tx->error && !defined $tx->remote_address;
        check($operation, $reply);
        $came{"$operation $status"}++;
        return $reply unless $status == 429 || $status >= 502;
        sleep $reply->headers->header('retry-after') // 1;
    }
}

# Ends the program if the description does not have the reply.
sub check ($operation, $reply) {
    my ($method, $path) = @{$routes{$operation}};
    my $status = $reply->code;
    my $found  = $description->get([paths => $path, $method => responses => $status]);
    die "$operation: no $status is described\n" unless $found;
    my %parts  = (body => $found->{content} ? {body => $reply->json} : {}, header => $reply->headers->to_hash);
    my @faults = $description->validate_response([$method, $path, $status], \%parts);
    my $codes  = $found->{'x-codes'};
    push @faults, 'a page where none is described' if !$found->{content} && length $reply->body;
    push @faults, 'a code that is not listed'      if $codes && !grep { $_ eq $reply->json->{code} } @$codes;
    die "$operation: $status ", $reply->body, ": @faults\n" if @faults;
}

# The bids of a sincere script for one product: a block leaves at its limit, but not below the start-of-round price.
sub steps ($limits, $demand, $start, $clock) {
    my @limits  = map { $limits->[$_] // 0 } 0 .. $demand - 1;
    my @leaving = sort { $a <=> $b } uniqnum map { max($start, $_) } grep { $_ < $clock } @limits;
    return [$demand, $clock] if $demand && !@leaving;
    return map { my $price = $_; [scalar(grep { $_ > $price } @limits), $price] } @leaving;
}

# All bids of a round. In round 1, a sincere script asks for each block whose limit is at or above the opening price.
sub bids ($products, $account) {
    my $round = $account->{round};
    return $script->{sheets}[$round - 1] if $script->{kind} eq 'literal';
    my $before = $round > 1 && ask(round_results => {n => $round - 1})->json->{products};
    my @bids;
    for my $place (0 .. $#$products) {
        my $limits = $script->{limits}[$place];
        my ($start, $clock) = $before ? @{$before->[$place]}{qw(posted next)} : ($products->[$place]{opening}) x 2;
        my $demand = $before ? $account->{demands}[$place] : grep { $_ >= $clock } @$limits;
        my @steps  = steps($limits, $demand, $start, $clock);
        push @bids, map { {product => $place, quantity => $_->[0], price => $_->[1]} } @steps;
    }
    return \@bids;
}

my $products = ask('products')->json->{products};
my $account  = ask('account')->json;
until ($account->{ended}) {
    my $round    = $account->{round};
    my $sheet    = {bids => bids($products, $account), round => $round};
    my $accepted = ask(submit_sheet => {body => $sheet});
    die 'refused: ', $accepted->body, "\n" if $accepted->code != 200;
    ask('sheet_in_force');
    while (1) {
        my $status = ask('status')->json;
        last if $status->{ended} || $status->{round} > $round;
        sleep 0.3;
    }
    ask(own_results => {n => $round});
    $account = ask('account')->json;
}
my $last = ask(round_results => {n => $account->{round}})->json->{products};
my $pays = 0;
$pays += $account->{demands}[$_] * $last->[$_]{posted} for 0 .. $#$last;
say "$_ $came{$_}" for sort keys %came;
say "won $account->{name} @{$account->{demands}} $pays";
